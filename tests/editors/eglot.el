;;; Drives the server from Emacs by eglot, in batch mode.  -*- lexical-binding: t -*-
;; It is loaded after an init file that sets up `ob0-mode' and eglot.
;; Variables: OB0_FILE (the file to edit), OB0_REPORT (where the findings go, a line of JSON each),
;; OB0_STEPS (the name of a list of steps below); what a list of steps needs besides is in OB0_GIVEN, as JSON.
(require 'eglot)
(require 'flymake)
(require 'json)

;; (a number in place of t is how long eglot waits for the first bytes that the server writes, be they a part of its answer)
(setq eglot-sync-connect t
      eglot-connect-timeout 300
      jsonrpc-default-request-timeout 300
      eglot-autoshutdown nil
      eglot-confirm-server-initiated-edits nil
      eglot-send-changes-idle-time 0
      make-backup-files nil
      create-lockfiles nil
      auto-save-default nil)

(defvar ob0-given (json-parse-string (or (getenv "OB0_GIVEN") "{}") :object-type 'alist :array-type 'list)
  "What the steps need besides the text.")
(defvar ob0-published 0 "How many publications came.")
(defvar ob0-said nil "The diagnostics of the last one.")
(defvar ob0-exit nil "The status that the server ended with.")

(defun ob0-report (step found)
  "Writes what was FOUND in a STEP."
  (let ((coding-system-for-write 'utf-8))
    (write-region (concat (json-serialize `(:step ,step :found ,found)) "\n") nil (getenv "OB0_REPORT") t 'silent)))

(defun ob0-await (what holds)
  "Waits for WHAT until HOLDS gives something."
  (with-timeout (300 (error "Waited in vain for %s" what))
    (while (not (funcall holds))
      (accept-process-output nil 0.01))))

(cl-defmethod eglot-handle-notification :after (_server (_method (eql textDocument/publishDiagnostics)) &key diagnostics &allow-other-keys)
  "Counts a publication."
  (setq ob0-published (1+ ob0-published)
        ob0-said diagnostics))

(defun ob0-shown ()
  "The diagnostics that flymake shows in this buffer: where they begin and end, and their texts."
  (flymake-start)
  (vconcat
   (mapcar (lambda (it)
             (vector (1- (flymake-diagnostic-beg it)) (1- (flymake-diagnostic-end it)) (flymake-diagnostic-text it)))
           (sort (flymake-diagnostics) (lambda (a b) (< (flymake-diagnostic-beg a) (flymake-diagnostic-beg b)))))))

(defun ob0-after (change)
  "Makes a CHANGE and gives what is shown once the server has sent something new."
  (let ((before ob0-published))
    (funcall change)
    (eglot--signal-textDocument/didChange)
    (ob0-await "diagnostics" (lambda () (> ob0-published before)))
    (ob0-shown)))

(defun ob0-goto (line character)
  "Goes to a place, both counted from 0."
  (goto-char (point-min))
  (forward-line line)
  (forward-char character))

(defun ob0-query (method &rest more)
  "The answer to a METHOD at point, as the server gave it."
  (let ((found (jsonrpc-request (eglot--current-server-or-lose) method (append (eglot--TextDocumentPositionParams) more))))
    (or found :null)))

(defun ob0-scanning ()
  "A bad character comes and goes."
  (ob0-report "typed" (ob0-after (lambda () (ob0-goto 0 16) (insert "$"))))
  (ob0-report "mended" (ob0-after (lambda () (ob0-goto 0 16) (delete-char 1)))))

(defun ob0-mending ()
  "A faulty text is replaced by a mended one."
  (ob0-report "mended" (ob0-after (lambda () (erase-buffer) (insert (alist-get 'mended ob0-given))))))

(defun ob0-questions ()
  "Hover, definition and references, as the server answers them."
  (ob0-goto 3 7)
  (ob0-report "hover" (ob0-query :textDocument/hover))
  (ob0-goto 2 47)
  (ob0-report "definition" (ob0-query :textDocument/definition))
  (ob0-report "references" (ob0-query :textDocument/references :context '(:includeDeclaration t))))

(defun ob0-hovered ()
  "What Emacs would show of the name at point."
  (let ((found nil))
    (eglot-hover-eldoc-function (lambda (text &rest _) (setq found (or text ""))))
    (ob0-await "what is shown" (lambda () found))
    (substring-no-properties found)))

(defun ob0-listed ()
  "The places that Emacs lists for the name at point."
  (vconcat (mapcar (lambda (it)
                     (let ((at (xref-item-location it)))
                       (vector (1- (xref-file-location-line at)) (xref-file-location-column at))))
                   (xref-backend-references 'eglot "LSP identifier at point."))))

(defun ob0-looking ()
  "Queries as Emacs makes them, at each of the places that are given."
  (dolist (place (alist-get 'places ob0-given))
    (apply #'ob0-goto place)
    (ob0-report "shown" (ob0-hovered))
    (ob0-report "listed" (ob0-listed))
    (xref-find-definitions "LSP identifier at point.")
    (ob0-report "jumped" (vector (1- (line-number-at-pos)) (current-column)))))

(defun ob0-index ()
  "The index of procedures, while the server runs."
  (ob0-report "index" (vconcat (mapcar #'car (imenu--make-index-alist t)))))

(defun ob0-outdated ()
  "A diagnostic of an older text names a place that is inside a character now."
  (eglot-handle-notification
   (eglot--current-server-or-lose) 'textDocument/publishDiagnostics
   :uri (plist-get (eglot--TextDocumentIdentifier) :uri)
   :diagnostics (vector '(:range (:start (:line 0 :character 14) :end (:line 0 :character 15))
                          :severity 1 :code "BadChar" :message "bad character")))
  (ob0-report "outdated" (length (ob0-shown))))

(defun ob0-text ()
  "The text of the buffer."
  (buffer-substring-no-properties (point-min) (point-max)))

(defun ob0-rename ()
  "A rename as Emacs requests it and applies it."
  (apply #'ob0-goto (alist-get 'place ob0-given))
  (ob0-report "renamed" (ob0-after (lambda () (eglot-rename (alist-get 'name ob0-given)))))
  (ob0-report "text" (ob0-text)))

;; A code action as Emacs requests it, offers it in its list, and applies it.
(defun ob0-acting ()
  "A code action of the title that is given is chosen of those that are offered."
  (apply #'ob0-goto (alist-get 'place ob0-given))
  (let* ((offered nil)
         (last-nonmenu-event ?x)
         (title (alist-get 'title ob0-given))
         (choose (lambda (_prompt items &rest _) (setq offered (mapcar #'car items)) title)))
    (ob0-report "acted" (ob0-after (lambda ()
                                   (cl-letf (((symbol-function 'completing-read) choose))
                                     (eglot-code-actions (point) (point) nil t)))))
    (ob0-report "offered" (vconcat offered))
    (ob0-report "text" (ob0-text))))

(defun ob0-format ()
  "A layout as Emacs requests it and applies it, the server's own answer after that, and the same once more."
  (setq indent-tabs-mode (eq (alist-get 'spaces ob0-given) :false)
        tab-width (alist-get 'size ob0-given))
  (ob0-report "formatted" (ob0-after #'eglot-format-buffer))
  (ob0-report "text" (ob0-text))
  (ob0-report "left to do"
            (ob0-query :textDocument/formatting
                     :options `(:tabSize ,tab-width :insertSpaces ,(if indent-tabs-mode :json-false t))))
  (let ((tick (buffer-chars-modified-tick)))
    (eglot-format-buffer)
    (ob0-report "changes" (- (buffer-chars-modified-tick) tick)))
  (ob0-report "text again" (ob0-text)))

(defun ob0-said-by (command)
  "What the user reads after a COMMAND that is refused."
  (condition-case why (progn (funcall command) "nothing") (error (error-message-string why))))

(defun ob0-refused ()
  "Renames that are refused, and what is asked while the module has an error."
  (dolist (it (alist-get 'renames ob0-given))
    (apply #'ob0-goto (car it))
    (ob0-report (cadr it) (ob0-said-by (lambda () (eglot-rename (cadr it))))))
  (ob0-after (lambda () (ob0-goto 0 0) (end-of-line) (insert "$")))
  (ob0-goto 1 4)
  (ob0-report "rename" (ob0-said-by (lambda () (eglot-rename "q"))))
  (ob0-report "definition" (ob0-said-by (lambda () (xref-find-definitions "LSP identifier at point."))))
  (ob0-report "format" (ob0-said-by #'eglot-format-buffer)))

(defun ob0-hinted ()
  "The diagnostics with their hints; of a changed text, and with other hints; and what the echo area shows there."
  (let ((hinted (lambda ()
                  (ob0-await "hints" (lambda ()
                                     (seq-some (lambda (it) (string-match-p "hint:" (flymake-diagnostic-text it)))
                                               (flymake-diagnostics))))
                  (ob0-shown))))
    (ob0-report "hinted" (funcall hinted))
    (ob0-report "changed" (ob0-after (lambda () (ob0-goto 3 2) (delete-region (point) (line-end-position)) (insert "x := 1;"))))
    (ob0-report "hinted again" (funcall hinted))
    (ob0-goto 4 2)
    (let ((shown nil))
      (flymake-eldoc-function (lambda (text &rest _) (setq shown (substring-no-properties text))))
      (ob0-report "echo area" (or shown "")))
    (setq ob0-hints nil)
    (ob0-report "mended" (ob0-after (lambda () (ob0-goto 4 2) (delete-region (point) (line-end-position)) (insert "WriteLn"))))))

(defun ob0-unread ()
  "What is told to the server of a text that can't be told, and after a message that it can't read."
  (let* ((told nil)
         (said nil)
         (tell (lambda (_ method &rest _) (push (substring (symbol-name method) 14) told)))
         (say (lambda (text &rest more) (when text (push (apply #'format text more) said))))
         (after (lambda (step does count)
                  (setq told nil said nil)
                  (funcall does)
                  (ob0-await "what is told" (lambda ()
                                            (eglot--signal-textDocument/didChange)
                                            (accept-process-output nil 0.05)
                                            (>= (length told) count)))
                  (ob0-report step (vector (string-join (reverse told) " ")
                                         (string-join (seq-filter (lambda (it) (string-prefix-p "ob0: " it)) (reverse said)) " | "))))))
    (advice-add 'jsonrpc-notify :before tell)
    (advice-add 'message :before say)
    (ob0-goto 1 0)
    (funcall after "half a pair" (lambda () (insert "(* " #xd83d " *)")) 4)
    (funcall after "still" (lambda () (insert " ")) 1)
    (funcall after "mended" (lambda () (erase-buffer) (insert "MODULE M;\n$END M.\n")) 1)
    (advice-remove 'message say)
    (ob0-await "diagnostics" (lambda () (= (length ob0-said) 1)))
    (advice-add 'message :before say)
    (funcall after "no message" (lambda () (process-send-string (jsonrpc--process (eglot-current-server)) "Content-Length: 1\r\n\r\n{")) 2)
    (advice-remove 'message say)
    (advice-remove 'jsonrpc-notify tell)))

(defun ob0-formatted ()
  "A layout and whether it changes something, the same once more, and the file that is written then."
  (dotimes (_ 2)
    (let ((tick (buffer-chars-modified-tick)))
      (eglot-format-buffer)
      (ob0-report "changes" (if (> (buffer-chars-modified-tick) tick) t :false))))
  (save-buffer)
  (ob0-report "file" (with-temp-buffer
                     (let ((coding-system-for-read 'utf-8-unix)) (insert-file-contents (getenv "OB0_FILE")))
                     (buffer-string))))

(defun ob0-end (server)
  "Shuts the SERVER down as eglot does, and waits for its end."
  (let ((process (jsonrpc--process server)))
    (setf (eglot--shutdown-requested server) t)
    (jsonrpc-request server :shutdown nil)
    (jsonrpc-notify server :exit nil)
    (ob0-await "the server's end" (lambda () (not (process-live-p process))))
    (ob0-report "ended" (process-exit-status process))))

(defun ob0-run ()
  "Opens the file, starts the server on it, takes the steps and ends."
  (find-file (getenv "OB0_FILE"))
  (unless (eq major-mode 'ob0-mode) (error "The file was taken as %s" major-mode))
  ;; (eglot-ensure connects after the next command)
  (run-hooks 'post-command-hook)
  (let ((server (eglot--current-server-or-lose)))
    (ob0-await "the first diagnostics" (lambda () (> ob0-published 0)))
    (ob0-report "opened" (ob0-shown))
    (funcall (intern (concat "ob0-" (getenv "OB0_STEPS"))))
    (ob0-end server)))

(condition-case why
    (ob0-run)
  (error (ob0-report "failed" (error-message-string why))
         (kill-emacs 1)))
(kill-emacs 0)
