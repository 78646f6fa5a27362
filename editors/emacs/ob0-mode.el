;;; ob0-mode.el --- Major mode for Oberon-0  -*- lexical-binding: t -*-

;; Author: The ob0 authors
;; Version: 0.1.0
;; Package-Requires: ((emacs "26.1"))
;; Keywords: languages
;; SPDX-License-Identifier: MIT

;;; Commentary:

;; Colours, comments that nest, indentation as the server's layout has it, an
;; index of procedures, commands that check and run a file, and the language
;; server `ob0 serve' by eglot or lsp-mode.

;;; Code:

(require 'cl-lib)
(require 'compile)
(require 'seq)
(require 'subr-x)

(defgroup ob0 nil
  "Oberon-0, the language of Wirth's Compiler Construction."
  :group 'languages)

(defcustom ob0-program "ob0"
  "The program: its name, or the path of its file."
  :type 'string)

(defcustom ob0-mod t
  "Whether files that end in .mod or .Mod are Oberon-0 if they begin with MODULE.
The case of this word doesn't matter."
  :type 'boolean)

(defcustom ob0-hints t
  "Whether a diagnostic's message is followed by what was probably meant.
The script `ob0-check' guesses that.  The packages of ob0 have it."
  :type 'boolean)

(defcustom ob0-indent-offset 2
  "How many columns a level has, in indentation and in layouts."
  :type 'integer
  :safe #'integerp)

(defvar ob0-mode-syntax-table
  (let ((table (make-syntax-table)))
    ;; `(*' and `*)' are comments, which nest
    (modify-syntax-entry ?\( "()1n" table)
    (modify-syntax-entry ?\) ")(4n" table)
    (modify-syntax-entry ?* ". 23n" table)
    (modify-syntax-entry ?_ "." table)
    (modify-syntax-entry ?\" "." table)
    (modify-syntax-entry ?\\ "." table)
    (modify-syntax-entry ?# "." table)
    (modify-syntax-entry ?~ "." table)
    table)
  "Which characters make words and comments.")

(defconst ob0-keywords
  '("MODULE" "BEGIN" "END" "CONST" "TYPE" "VAR" "PROCEDURE" "IF" "THEN" "ELSIF"
    "ELSE" "WHILE" "DO" "REPEAT" "UNTIL" "ARRAY" "OF" "RECORD" "DIV" "MOD" "OR")
  "The reserved words.")

(defconst ob0-font-lock-keywords
  `((,(regexp-opt ob0-keywords 'words) . font-lock-keyword-face)
    (,(regexp-opt '("INTEGER" "BOOLEAN") 'words) . font-lock-type-face)
    (,(regexp-opt '("TRUE" "FALSE") 'words) . font-lock-constant-face)
    (,(regexp-opt '("Read" "Write" "WriteLn") 'words) . font-lock-builtin-face)
    ("\\_<\\(?:PROCEDURE\\|MODULE\\)\\s-+\\([A-Za-z][A-Za-z0-9]*\\)" 1 font-lock-function-name-face)
    ("\\_<[0-9]+[A-Za-z][A-Za-z0-9]*" 0 font-lock-warning-face))
  "What is coloured besides comments.")

;;; Checking and running

(defvar-local ob0--checked nil
  "The file that this buffer's lines are about.")

(add-to-list 'compilation-error-regexp-alist-alist
             `(ob0 "^line \\([0-9]+\\), column \\([0-9]+\\): "
                   ,(lambda () (or ob0--checked "*unknown*"))
                   1 2))

(defun ob0--count-from-one ()
  "Write the places in what the compilation has printed as Emacs counts.
`ob0 check' counts lines and columns from 0."
  (save-excursion
    (goto-char compilation-filter-start)
    (beginning-of-line)
    (while (re-search-forward "^\\([0-9]+\\):\\([0-9]+\\): " nil t)
      (replace-match (format "line %d, column %d: "
                             (1+ (string-to-number (match-string 1)))
                             (1+ (string-to-number (match-string 2))))
                     t t))))

(define-compilation-mode ob0-check-mode "Oberon-0 check"
  "What is wrong with a file."
  (setq-local compilation-error-regexp-alist '(ob0))
  (add-hook 'compilation-filter-hook #'ob0--count-from-one nil t))

(defun ob0--program ()
  "Return the program, or report an error that names the option for another."
  (or (executable-find ob0-program)
      (user-error "There is no program %s: set the option `ob0-program' to its path" ob0-program)))

(defun ob0--saved-file ()
  "The file of this buffer, with what the buffer has."
  (let ((file (or (buffer-file-name) (user-error "This buffer has no file: save it first"))))
    (when (buffer-modified-p) (save-buffer))
    file))

(defun ob0-check ()
  "Save the file of this buffer, check it, and list what is wrong with it."
  (interactive)
  (let ((program (ob0--program))
        (file (ob0--saved-file)))
    (with-current-buffer
        (compilation-start (format "%s check %s" (shell-quote-argument program) (shell-quote-argument file))
                           #'ob0-check-mode)
      (setq ob0--checked file))))

(defun ob0-run (numbers)
  "Save this buffer's file, run its module on NUMBERS, and show what it prints.
The errors of a module that can't be run are listed as by `ob0-check'."
  (interactive "sNumbers that it reads (RET ends them): ")
  (let ((program (ob0--program))
        (file (ob0--saved-file)))
    (unless (eql 0 (call-process program nil nil nil "check" file))
      (ob0-check)
      (user-error "The module has errors"))
    (with-current-buffer (get-buffer-create "*ob0-run*")
      (erase-buffer)
      (insert numbers)
      (call-process-region (point-min) (point-max) program t t nil "run" file)
      (display-buffer (current-buffer)))))

;;; Indentation

;; What decides is the text from the heading above (MODULE or PROCEDURE, first in its line) to the line; the column of a
;; PROCEDURE gives its level.

(defconst ob0--deciding
  (concat "\\_<"
          (regexp-opt '("MODULE" "PROCEDURE" "IF" "WHILE" "REPEAT" "RECORD" "END" "UNTIL"
                        "BEGIN" "THEN" "DO" "ELSE" "CONST" "TYPE" "VAR" "ELSIF"))
          "\\_>\\|[][();]\\|[A-Za-z0-9]+\\|[^ \t\r\n]")
  "What decides levels, and every other token.")

(cl-defstruct (ob0--state (:copier nil))
  "What is open at a place outside comments: blocks and the rest with their
levels, and parentheses; and whether a statement begins there."
  (stack nil) (parens 0) (fresh t))

(defun ob0--inside (stack)
  "The level of what is inside the innermost block or statement of STACK.
A record is neither."
  (let ((found (seq-find (lambda (it) (not (eq (car it) 'record))) stack)))
    (if found (1+ (cdr found)) 0)))

(defun ob0--take (state token)
  "Take a TOKEN into a STATE."
  (let ((stack (ob0--state-stack state)))
    (pcase token
      ("MODULE" (push '(block . 0) stack))
      ("PROCEDURE" (push (cons 'block (ob0--inside stack)) stack))
      ((or "IF" "WHILE" "REPEAT") (push (cons 'statement (ob0--inside stack)) stack))
      ("RECORD" (push '(record . 0) stack))
      ((or "END" "UNTIL") (pop stack))
      ((or "(" "[") (cl-incf (ob0--state-parens state)))
      ((or ")" "]") (cl-decf (ob0--state-parens state))))
    (setf (ob0--state-stack state) stack
          (ob0--state-fresh state)
          (and (<= (ob0--state-parens state) 0)
               (not (eq (caar stack) 'record))
               (member token '(";" "BEGIN" "THEN" "DO" "ELSE" "REPEAT" "CONST" "TYPE" "VAR"))))))

(defun ob0--scan (state end)
  "Take the text from point to END into a STATE.
Go to END, or after the comment that it is in."
  (let ((case-fold-search nil))
    (while (and (< (point) end) (re-search-forward ob0--deciding end 'move))
      (if (not (and (eq (char-before) ?\() (eq (char-after) ?*)))
          (ob0--take state (match-string-no-properties 0))
        (backward-char)
        (unless (forward-comment 1) (goto-char (point-max)))))))

(defun ob0--go-to-heading (start)
  "Go to the heading before START, or to the start of the text.
Return the state there: in a block for each level."
  (let ((case-fold-search nil) (found nil))
    (goto-char start)
    (while (and (not found) (re-search-backward "^[ \t]*\\(MODULE\\|PROCEDURE\\)\\_>" nil 'move))
      (let ((outer (save-match-data (nth 8 (syntax-ppss (match-beginning 1))))))
        (if outer (goto-char outer) (setq found t))))
    (make-ob0--state
     :stack (when (and found (equal (match-string 1) "PROCEDURE"))
              (mapcar (lambda (it) (cons 'block it))
                      (number-sequence (1- (max 1 (/ (current-indentation) ob0-indent-offset))) 0 -1))))))

(defun ob0--level (state)
  "The level of the line at point, in a STATE."
  (let* ((stack (ob0--state-stack state))
         (top (car stack))
         (records (seq-count (lambda (it) (eq (car it) 'record)) stack))
         (case-fold-search nil)
         ;; (a line of comments is indented like the line after it)
         (next (save-excursion
                 (forward-comment (buffer-size))
                 (if (looking-at ob0--deciding) (match-string-no-properties 0) ""))))
    (cond ((null stack) 0)
          ((or (and (<= (ob0--state-parens state) 0) (eq (car top) 'block) (member next '("CONST" "TYPE" "VAR" "BEGIN")))
               (and (not (eq (car top) 'record)) (member next '("END" "ELSIF" "ELSE" "UNTIL"))))
           (cdr top))
          ;; (fields are one level further in than the name of their record's declaration, and END is below that name)
          ((> records 0) (+ (ob0--inside stack) records (if (equal next "END") -1 0)))
          (t (+ (ob0--inside stack) (if (or (ob0--state-fresh state) (equal next "PROCEDURE")) 0 1))))))

(defun ob0-indent-line ()
  "Indent this line as the server's layout does."
  (interactive)
  (let ((start (line-beginning-position))
        (from-end (- (point-max) (point))))
    ;; (inside a comment lines stay as they are)
    (unless (nth 4 (save-excursion (syntax-ppss start)))
      (let ((level (save-excursion
                     (let ((state (ob0--go-to-heading start)))
                       (ob0--scan state start)
                       (ob0--level state)))))
        (indent-line-to (* ob0-indent-offset level))
        (when (> (- (point-max) from-end) (point))
          (goto-char (- (point-max) from-end)))))))

(defun ob0-indent-region (start end)
  "Indent the lines from START to END as the server's layout does, in one pass."
  (interactive "r")
  (save-excursion
    (goto-char start)
    (let* ((last (copy-marker end))
           (from (line-beginning-position))
           (state (ob0--go-to-heading from)))
      ;; (this ends after the comment that the line begins in, if it does)
      (ob0--scan state from)
      (while (< (point) last)
        (let ((line (line-beginning-position)))
          ;; (after a comment of several lines point is behind the start of its last line, which isn't indented)
          (when (<= (point) line)
            (if (looking-at "[ \t]*$")
                (delete-horizontal-space)
              (indent-line-to (* ob0-indent-offset (ob0--level state)))))
          (ob0--scan state (line-beginning-position 2))))
      (set-marker last nil))))

(defconst ob0--electric
  (concat "^[ \t]*" (regexp-opt '("MODULE" "CONST" "TYPE" "VAR" "PROCEDURE" "BEGIN" "END" "ELSIF" "ELSE" "UNTIL")) "\\=")
  "The words that indent their line when they are typed, as the first in it.")

(defun ob0--ends-word (_)
  "Whether the character before point ends a word of `ob0--electric'."
  (let ((case-fold-search nil))
    (save-excursion (re-search-backward ob0--electric (line-beginning-position) t))))

;;; Procedures

(defun ob0--find (pattern move)
  "Go to the next PATTERN outside comments by the search MOVE, if there is one."
  (let ((case-fold-search nil) (found nil))
    (while (and (not found) (funcall move pattern nil t))
      (setq found (save-match-data (not (nth 4 (save-excursion (syntax-ppss (match-beginning 0))))))))
    found))

(defun ob0-end-of-defun ()
  "Go from the start of a procedure or module to its end."
  (let ((depth 1))
    (ob0--find "\\_<\\(?:MODULE\\|PROCEDURE\\)\\_>" #'re-search-forward)
    (while (and (> depth 0) (ob0--find "\\_<\\(?:PROCEDURE\\|IF\\|WHILE\\|RECORD\\|END\\)\\_>" #'re-search-forward))
      (setq depth (+ depth (if (equal (match-string 0) "END") -1 1))))
    (if (> depth 0)
        (goto-char (point-max))
      (skip-chars-forward " \t\r\n")
      (skip-chars-forward "A-Za-z0-9")
      (skip-chars-forward ";."))))

(defun ob0-beginning-of-defun (&optional arg)
  "Go back to the start of the procedure or module that point is in.
From a start go to the one before; with a negative ARG to the next."
  (let* ((words "\\_<\\(?:MODULE\\|PROCEDURE\\)\\_>")
         (from (point))
         (case-fold-search nil)
         (at-start (save-excursion
                     (beginning-of-line)
                     (and (looking-at (concat "[ \t]*\\(" words "\\)")) (<= from (match-beginning 1)))))
         (found nil))
    (if (< (or arg 1) 0)
        (progn
          (when (looking-at words) (goto-char (match-end 0)))
          (when (setq found (ob0--find words #'re-search-forward))
            (goto-char (match-beginning 0))))
      (while (and (not found) (ob0--find words #'re-search-backward))
        (setq found (or at-start (>= (save-excursion (ob0-end-of-defun) (point)) from)))))
    (unless found (goto-char from))
    found))

;;; The mode

;; (the server has no index: imenu uses `imenu-generic-expression', even if eglot 1.9 would ask the server)
(defvar eglot-stay-out-of)

;;;###autoload
(define-derived-mode ob0-mode prog-mode "Oberon-0"
  "Major mode for Oberon-0."
  (setq-local comment-start "(* "
              comment-end " *)"
              comment-start-skip "(\\*+[ \t]*"
              comment-end-skip "[ \t]*\\*+)"
              ;; (names differ by case; and a replacement that meets another case has eglot report a wrong change)
              case-fold-search nil
              font-lock-defaults '(ob0-font-lock-keywords)
              indent-line-function #'ob0-indent-line
              indent-region-function #'ob0-indent-region
              beginning-of-defun-function #'ob0-beginning-of-defun
              end-of-defun-function #'ob0-end-of-defun
              indent-tabs-mode nil
              tab-width ob0-indent-offset
              standard-indent ob0-indent-offset
              eglot-stay-out-of (cons 'imenu (bound-and-true-p eglot-stay-out-of))
              imenu-generic-expression '((nil "^\\s-*PROCEDURE\\s-+\\([A-Za-z][A-Za-z0-9]*\\)" 1)))
  (add-hook 'electric-indent-functions #'ob0--ends-word nil t))

(defun ob0-begins-with-module ()
  "Whether the first word of this buffer, after comments, is MODULE in any case.
The rest doesn't matter, since the server reports a slip there.  In Go's files a
path follows `module', or the file is go.mod."
  (save-excursion
    (goto-char (point-min))
    (with-syntax-table ob0-mode-syntax-table
      (forward-comment (buffer-size)))
    (let ((word "MODULE\\(?:[^A-Za-z0-9_]\\|\\'\\)") (case-fold-search nil))
      (or (looking-at word)
          (progn
            (setq case-fold-search t)
            (and (looking-at word)
                 (not (looking-at "MODULE[ \t]+[^ \t\n]*[./][a-z0-9]"))
                 (not (equal (file-name-nondirectory (or buffer-file-name "")) "go.mod"))))))))

;;;###autoload
(defun ob0-maybe-mode ()
  "Take `ob0-mode' if the first word is MODULE, else what Emacs takes without it."
  (if (and ob0-mod (ob0-begins-with-module))
      (ob0-mode)
    (let ((auto-mode-alist (rassq-delete-all 'ob0-maybe-mode (copy-alist auto-mode-alist))))
      (set-auto-mode))))

;;;###autoload
(defun ob0-maybe-mode-once-saved ()
  "Take `ob0-mode' for a file that is looked into and begins with MODULE now.
A new file has no first word when it is opened."
  (when (and ob0-mod
             buffer-file-name
             (not (derived-mode-p 'ob0-mode))
             (let ((case-fold-search nil)) (string-match-p "\\.[Mm]od\\'" buffer-file-name))
             (ob0-begins-with-module))
    (ob0-mode)))

;;;###autoload
(add-hook 'after-save-hook #'ob0-maybe-mode-once-saved)
;;;###autoload
(add-to-list 'auto-mode-alist '("\\.ob0\\'" . ob0-mode))
;;;###autoload
(add-to-list 'auto-mode-alist '("\\.[Mm]od\\'" . ob0-maybe-mode))

;;; Snippets

(defconst ob0--snippets
  (expand-file-name "snippets" (file-name-directory (or load-file-name buffer-file-name default-directory)))
  "The folder of snippets beside this file.")

(declare-function yas-load-directory "ext:yasnippet")
(with-eval-after-load 'yasnippet
  (when (file-directory-p ob0--snippets)
    (yas-load-directory ob0--snippets t)))

;;; The language server

(defun ob0--move-to-column (column)
  "Go to the UTF-16 COLUMN of this line.
Where it is inside a character, go before that."
  (let ((end (line-end-position)))
    (beginning-of-line)
    (while (and (> column 0) (< (point) end))
      (setq column (- column (if (> (char-after) #xffff) 2 1)))
      (when (>= column 0) (forward-char)))))

(defvar eglot-move-to-column-function)
(defun ob0--count-columns ()
  "Have eglot go to columns by `ob0--move-to-column'."
  (when (derived-mode-p 'ob0-mode)
    (setq-local eglot-move-to-column-function #'ob0--move-to-column)))

(defvar eglot-server-programs)
(with-eval-after-load 'eglot
  (add-to-list 'eglot-server-programs
               (cons 'ob0-mode (lambda (&rest _) (list (ob0--program) "serve"))))
  ;; (eglot 1.9 searches without end for a column inside a character above U+FFFF; a diagnostic of an older text can have one)
  (unless (boundp 'eglot-move-to-linepos-function)
    (add-hook 'eglot-managed-mode-hook #'ob0--count-columns)))

;; A client shows only the text of a refusal, or a line of Lisp. These words are from docs/MESSAGES.md; NAME and LINE are replaced
;; according to the answer.
(defconst ob0--words
  '(("NoName" . "no name here can be renamed: predeclared ones and the module's can't")
    ("Predeclared" . "a predeclared name can't be renamed")
    ("BadName" . "a name has letters and digits, a letter first, and isn't a reserved word")
    ("Duplicate" . "`NAME` is declared in line LINE already")
    ("Captures" . "with the new name, `NAME` in line LINE would refer to another declaration")
    ("TooLong" . "the text would have more than 1,048,576 bytes")
    ("TooDeep" . "the text would be nested more than 100 deep")
    ("Shadowed" . "it would write TRUE or FALSE, which the module declares as something else")
    ("CommentInside" . "there is a comment in the declaration that would be deleted")
    ("ill-typed" . "the module has an error: fix the first one that is marked"))
  "The words for each refusal of the server.")

(defun ob0--name-at (line column)
  "The name at COLUMN, in the server's units, of the LINE that is counted from 0."
  (save-excursion
    (save-restriction
      (widen)
      (goto-char (point-min))
      (forward-line line)
      (funcall (or (bound-and-true-p eglot-move-to-linepos-function) #'ob0--move-to-column) column)
      (or (thing-at-point 'symbol t) ""))))

(defun ob0--in-words (refusal)
  "The words for a REFUSAL, with the line as Emacs counts it and the name there.
Nil if it is none."
  (let ((case-fold-search nil))
    (if (not (string-match "\\(?:\\`\\|: \\)\\([A-Za-z]+\\) \\([0-9]+\\):\\([0-9]+\\)-[0-9]+:[0-9]+" refusal))
        (cdr (assoc refusal ob0--words))
      (let ((words (cdr (assoc (match-string 1 refusal) ob0--words)))
            (line (string-to-number (match-string 2 refusal)))
            (column (string-to-number (match-string 3 refusal))))
        (when words
          (setq words (replace-regexp-in-string "LINE" (number-to-string (1+ line)) words t t))
          (replace-regexp-in-string "NAME" (ob0--name-at line column) words t t))))))

(declare-function flymake-diagnostics "flymake")
(declare-function lsp--get-buffer-diagnostics "ext:lsp-mode")
(defun ob0--has-error ()
  "Whether there are diagnostics of this buffer."
  (or (and (bound-and-true-p flymake-mode) (flymake-diagnostics))
      (and (bound-and-true-p lsp-mode) (fboundp 'lsp--get-buffer-diagnostics) (lsp--get-buffer-diagnostics))))

(defun ob0--tell-refusal (command &rest arguments)
  "Call COMMAND with ARGUMENTS, and put a refusal of the server into words.
If nothing is found because the module has an error, tell that."
  (if (not (derived-mode-p 'ob0-mode))
      (apply command arguments)
    (condition-case refusal (apply command arguments)
      (error
       (let* ((said (or (alist-get 'jsonrpc-error-message (cdr-safe (cdr-safe refusal))) (car-safe (cdr-safe refusal))))
              (words (and (stringp said) (ob0--in-words said))))
         (when (and (not words) (eq (car refusal) 'user-error) (ob0--has-error))
           (setq words (cdr (assoc "ill-typed" ob0--words))))
         (if words (user-error "ob0: %s" words) (signal (car refusal) (cdr refusal))))))))

(defun ob0--tell-no-name (at-point &rest _)
  "Tell why nothing can be renamed, if AT-POINT is nil."
  (when (and (derived-mode-p 'ob0-mode) (not at-point))
    (user-error "ob0: %s" (cdr (assoc (if (ob0--has-error) "ill-typed" "NoName") ob0--words)))))

(with-eval-after-load 'eglot
  (dolist (it '(eglot-rename eglot-format))
    (advice-add it :around #'ob0--tell-refusal)))
(with-eval-after-load 'lsp-mode
  (dolist (it '(lsp-rename lsp-format-buffer))
    (advice-add it :around #'ob0--tell-refusal))
  (when (fboundp 'lsp--read-rename)
    (advice-add 'lsp--read-rename :before #'ob0--tell-no-name)))
(with-eval-after-load 'xref
  (advice-add 'xref-find-definitions :around #'ob0--tell-refusal))

;; What was probably meant is appended to the diagnostics of a text once it rests, as `ob0-check --hints' guesses it: the
;; client then takes them a second time.

(defvar-local ob0--resting nil
  "The timer that asks for the hints of this buffer's errors.")

(defun ob0--hints-program ()
  "Return the script beside the program, or else the one on PATH, or nil."
  (let ((program (executable-find ob0-program)))
    (or (and program (executable-find (expand-file-name "ob0-check" (file-name-directory program))))
        (executable-find "ob0-check"))))

(defun ob0--with-hints (messages errors)
  "Return MESSAGES with the hints of ERRORS, which are `ob0-check' 's JSON.
Nil if these are other errors, or have no hints."
  (let ((hints (mapcar (lambda (it) (alist-get 'body (alist-get 'content it))) errors)))
    (and (equal messages (mapcar (lambda (it) (alist-get 'description it)) errors))
         (delq nil (copy-sequence hints))
         (cl-mapcar (lambda (message hint) (if hint (format "%s\nhint: %s" message hint) message)) messages hints))))

(declare-function json-read "json")
(defun ob0--take-hints (out tick messages show)
  "Call SHOW with MESSAGES and their hints, which the buffer OUT has.
Unless this buffer's text is another one than at this TICK."
  (let ((errors (with-current-buffer out
                  (goto-char (point-min))
                  (ignore-errors (append (json-read) nil)))))
    (when (eql tick (buffer-chars-modified-tick))
      (let ((found (ob0--with-hints messages errors)))
        (when found (funcall show found))))))

(defun ob0--ask-for-hints (messages show)
  "Ask for the hints of errors with these MESSAGES in this buffer.
Call SHOW with the messages and their hints."
  (let ((program (ob0--hints-program))
        (buffer (current-buffer))
        (tick (buffer-chars-modified-tick))
        (out (generate-new-buffer " *ob0-hints*")))
    (if (not program)
        (kill-buffer out)
      (let ((process (make-process
                      :name "ob0-hints" :buffer out :command (list program "--hints" "--json" "-")
                      :connection-type 'pipe :coding 'utf-8-unix :noquery t
                      :sentinel (lambda (process _)
                                  (unless (process-live-p process)
                                    (when (buffer-live-p buffer)
                                      (with-current-buffer buffer (ob0--take-hints out tick messages show)))
                                    (kill-buffer out))))))
        (ignore-errors
          (save-restriction
            (widen)
            (process-send-region process (point-min) (point-max)))
          (process-send-eof process))))))

(declare-function url-unhex-string "url-util")
(defun ob0--is-at (uri)
  "Whether this buffer's file is the one at URI."
  (let ((path (decode-coding-string (url-unhex-string (string-remove-prefix "file://" uri)) 'utf-8)))
    (member path (list (expand-file-name buffer-file-name) (file-truename buffer-file-name)))))

(defun ob0--hint (uri messages show)
  "Show MESSAGES of the document at URI with hints by SHOW, once its text rests."
  (dolist (buffer (buffer-list))
    (with-current-buffer buffer
      (when (and ob0-hints (derived-mode-p 'ob0-mode) buffer-file-name (ob0--is-at uri))
        (when ob0--resting (cancel-timer ob0--resting))
        (setq ob0--resting
              (and messages
                   (let ((tick (buffer-chars-modified-tick)))
                     (run-at-time 0.3 nil (lambda ()
                                            (when (buffer-live-p buffer)
                                              (with-current-buffer buffer
                                                (when (eql tick (buffer-chars-modified-tick))
                                                  (ob0--ask-for-hints messages show)))))))))))))

(defvar ob0--is-hinted nil "Whether a client takes diagnostics that have hints.")

(declare-function eglot-handle-notification "ext:eglot")
(defun ob0--hint-in-eglot (server method &rest params)
  "Have eglot take the diagnostics of a notification again, with hints.
SERVER, METHOD and PARAMS are what it was called with."
  (when (and (eq method 'textDocument/publishDiagnostics) (not ob0--is-hinted))
    (let ((listed (append (plist-get params :diagnostics) nil)))
      (ob0--hint (plist-get params :uri)
                 (mapcar (lambda (it) (plist-get it :message)) listed)
                 (lambda (messages)
                   (let ((ob0--is-hinted t)
                         (hinted (cl-mapcar (lambda (it message) (plist-put (copy-sequence it) :message message))
                                            listed messages)))
                     (apply #'eglot-handle-notification server method
                            (plist-put (copy-sequence params) :diagnostics (vconcat hinted)))))))))

(declare-function lsp--on-diagnostics "ext:lsp-mode")
(declare-function lsp-get "ext:lsp-protocol")
(declare-function lsp-put "ext:lsp-protocol")
(defun ob0--hint-in-lsp-mode (workspace params)
  "Have lsp-mode take the diagnostics in PARAMS again, with hints.
WORKSPACE and PARAMS are what `lsp--on-diagnostics' was called with."
  (unless ob0--is-hinted
    (let ((listed (append (lsp-get params :diagnostics) nil)))
      (ob0--hint (lsp-get params :uri)
                 (mapcar (lambda (it) (lsp-get it :message)) listed)
                 (lambda (messages)
                   (let ((ob0--is-hinted t))
                     (cl-mapc (lambda (it message) (lsp-put it :message message)) listed messages)
                     (lsp--on-diagnostics workspace params)))))))

(with-eval-after-load 'eglot
  (require 'json)
  (require 'url-util)
  (advice-add 'eglot-handle-notification :after #'ob0--hint-in-eglot))
(with-eval-after-load 'lsp-mode
  (require 'json)
  (require 'url-util)
  (advice-add 'lsp--on-diagnostics :after #'ob0--hint-in-lsp-mode))

;; A text with half a surrogate pair, or with a byte that isn't UTF-8, can't be told: a client then fails at each change, and the
;; server keeps an older text. So such a buffer is closed there and opened again once, and after that at the next change.

(defvar ob0--told nil
  "The buffer whose text a server was told last.")
(defvar-local ob0--tried nil
  "Whether this buffer was opened again, and the server hasn't read it since.")
(defvar-local ob0--closed nil
  "Whether this buffer is closed at the server, since its text can't be told.")

(declare-function eglot--signal-textDocument/didOpen "ext:eglot")
(declare-function eglot--signal-textDocument/didClose "ext:eglot")
(declare-function lsp-workspaces "ext:lsp-mode")
(declare-function lsp-notify "ext:lsp-mode")
(declare-function lsp--text-document-identifier "ext:lsp-mode")
(declare-function lsp--text-document-did-open "ext:lsp-mode")
(defvar lsp--cur-workspace)
(defun ob0--signal (is-opened)
  "Tell the server that this buffer is opened, or closed unless IS-OPENED."
  (if (not (bound-and-true-p lsp-mode))
      (if is-opened (eglot--signal-textDocument/didOpen) (eglot--signal-textDocument/didClose))
    (dolist (lsp--cur-workspace (lsp-workspaces))
      (if is-opened
          (lsp--text-document-did-open)
        (lsp-notify "textDocument/didClose" (list :textDocument (lsp--text-document-identifier)))))))

(defun ob0--open-again (why)
  "Close this buffer at the server, and open it again unless that was tried.
WHY says what is wrong with it."
  (ob0--signal nil)
  (let ((is-again ob0--tried))
    (setq ob0--tried t ob0--closed is-again)
    (message "ob0: the server can't read %s: %s (%s)" (buffer-name)
             (if is-again "it stays closed until it is changed" "it is opened again")
             (truncate-string-to-width (car (split-string why "\n")) 60 nil nil t))
    (unless is-again
      (condition-case problem (ob0--signal t)
        (error (ob0--open-again (error-message-string problem)))))))

(defvar eglot--recent-changes)
(defun ob0--tell-change (tell &rest arguments)
  "Call TELL with ARGUMENTS; if that fails, open this buffer again."
  (if (not (derived-mode-p 'ob0-mode))
      (apply tell arguments)
    (setq ob0--told (current-buffer))
    (let ((is-changed (or (bound-and-true-p lsp-mode) eglot--recent-changes)))
      (condition-case problem
          (cond ((not ob0--closed) (apply tell arguments))
                (is-changed (ob0--signal t) (setq ob0--closed nil)))
        (error (cond ((not ob0--closed) (ob0--open-again (error-message-string problem)))
                     ((boundp 'eglot--recent-changes) (setq eglot--recent-changes nil))))))))

(defun ob0--note (version refusal)
  "Note that the server has read a text of a VERSION, or its REFUSAL of one."
  (cond (version
         (dolist (it (buffer-list))
           (with-current-buffer it
             (when (and ob0--tried (not ob0--closed) (derived-mode-p 'ob0-mode))
               (setq ob0--tried nil)))))
        ((and (member refusal '("not JSON" "not a message")) (buffer-live-p ob0--told))
         (with-current-buffer ob0--told
           (unless ob0--closed (ob0--open-again refusal))))))

(defun ob0--take-answer (_ message &rest _)
  "Take a MESSAGE of a server to eglot."
  (ob0--note (and (plist-get message :method) (plist-get (plist-get message :params) :version))
             (unless (plist-get message :id) (plist-get (plist-get message :error) :message))))

(defun ob0--take-answer-in-lsp-mode (take message workspace)
  "Take a MESSAGE of a server to lsp-mode.
TAKE gets it and its WORKSPACE, unless it refuses a text."
  (let ((fault (unless (lsp-get message :id) (lsp-get message :error))))
    (ob0--note (and (lsp-get message :method) (lsp-get (lsp-get message :params) :version))
               (and fault (lsp-get fault :message)))
    (unless fault (funcall take message workspace))))

(with-eval-after-load 'eglot
  (advice-add 'eglot--signal-textDocument/didChange :around #'ob0--tell-change)
  (when (fboundp 'jsonrpc-connection-receive)
    (advice-add 'jsonrpc-connection-receive :before #'ob0--take-answer)))
(with-eval-after-load 'lsp-mode
  (advice-add 'lsp-on-change :around #'ob0--tell-change)
  (when (fboundp 'lsp--parser-on-message)
    (advice-add 'lsp--parser-on-message :around #'ob0--take-answer-in-lsp-mode)))

(defvar lsp-language-id-configuration)
(defvar lsp--formatting-indent-alist)
(declare-function lsp-register-client "ext:lsp-mode")
(declare-function make-lsp-client "ext:lsp-mode")
(declare-function lsp-stdio-connection "ext:lsp-mode")
(with-eval-after-load 'lsp-mode
  (add-to-list 'lsp-language-id-configuration '(ob0-mode . "oberon0"))
  ;; (the width of a level that lsp-mode sends when it requests a layout)
  (add-to-list 'lsp--formatting-indent-alist '(ob0-mode . ob0-indent-offset))
  (lsp-register-client
   (make-lsp-client :new-connection (lsp-stdio-connection (lambda () (list ob0-program "serve"))
                                                          (lambda () (executable-find ob0-program)))
                    :major-modes '(ob0-mode)
                    :server-id 'ob0)))

(provide 'ob0-mode)
;;; ob0-mode.el ends here
