;;; Tests of ob0-mode without a server.  -*- lexical-binding: t -*-
;; OB0_FILES, OB0_EXAMPLES, OB0_RECORD: what is looked at, as JSON.
(require 'ert)
(require 'imenu)
(require 'json)

(defun given (name)
  "The value of the variable NAME."
  (json-parse-string (getenv name) :array-type 'list :false-object nil))

(defmacro with-text (text &rest body)
  "Does BODY in a buffer with TEXT."
  (declare (indent 1))
  `(with-temp-buffer (insert ,text) (ob0-mode) (font-lock-ensure) (goto-char (point-min)) ,@body))

(defun face-of (word)
  "The face of the first WORD."
  (goto-char (point-min))
  (let ((case-fold-search nil)) (search-forward word))
  (get-text-property (match-beginning 0) 'face))

(ert-deftest modes ()
  (pcase-dolist (`(,name ,text ,taken) (given "OB0_FILES"))
    (with-temp-buffer
      (insert text)
      (setq buffer-file-name (concat "/tmp/" name))
      (set-auto-mode)
      (setq buffer-file-name nil)
      (should (equal (list name (eq major-mode 'ob0-mode)) (list name (eq taken t)))))))

(ert-deftest colours ()
  (with-text "MODULE M; (* a (* b *) still (*) open *) *) VAR Begin: INTEGER; BEGIN Begin := 4x; Write(TRUE) END M."
    (dolist (it '(("still" font-lock-comment-face) ("open" font-lock-comment-face) ("VAR" font-lock-keyword-face) ("Begin" nil)
                  ("INTEGER" font-lock-type-face) ("4x" font-lock-warning-face) ("Write" font-lock-builtin-face)
                  ("TRUE" font-lock-constant-face)))
      (should (equal it (list (car it) (face-of (car it))))))))

(ert-deftest indents-as-the-server-lays-out ()
  (dolist (file (given "OB0_EXAMPLES"))
    (let ((text (with-temp-buffer (insert-file-contents file) (buffer-string))))
      (with-text text
        ;; (every line of code without its indentation, and then indented again; what is inside comments stays)
        (goto-char (point-min))
        (while (not (eobp))
          (unless (nth 4 (syntax-ppss)) (delete-horizontal-space))
          (forward-line))
        (let ((inhibit-message t)) (indent-region (point-min) (point-max)))
        (should (equal (buffer-string) text))))))

(ert-deftest indents-records ()
  (let ((text (given "OB0_RECORD")))
    (with-text text
      (while (not (eobp)) (delete-horizontal-space) (forward-line))
      (let ((inhibit-message t)) (indent-region (point-min) (point-max)))
      (should (equal (buffer-string) text)))))

(ert-deftest indents-by-the-heading-above ()
  (let ((text (given "OB0_BROKEN")))
    (with-text text
      (forward-line 6)
      (while (not (eobp)) (ob0-indent-line) (forward-line))
      (should (equal (buffer-string) text)))))

(ert-deftest indents-words-as-they-are-typed ()
  (with-temp-buffer
    (switch-to-buffer (current-buffer))
    (insert "MODULE M;\n  PROCEDURE P;")
    (ob0-mode)
    (electric-indent-mode 1)
    (execute-kbd-macro "\rBEGIN\rIF TRUE THEN\rWrite(1)\rELSE\rBEGINS(2)\rEND\rEND P;\rBEGIN\rP\rEND M.")
    (electric-indent-mode -1)
    (should (equal (buffer-string)
                   (concat "MODULE M;\n  PROCEDURE P;\n  BEGIN\n    IF TRUE THEN\n      Write(1)\n    ELSE\n      BEGINS(2)\n    END\n  END P;\n"
                           "BEGIN\n  P\nEND M.")))))

(ert-deftest left-alone ()
  (let ((ob0-mod nil)
        (file (make-temp-file "l" nil ".mod" "MODULE M; END M.\n")))
    (with-current-buffer (find-file-noselect file)
      (should-not (derived-mode-p 'ob0-mode))
      (insert " ")
      (let ((inhibit-message t)) (save-buffer))
      (should-not (derived-mode-p 'ob0-mode)))))

(ert-deftest new-file ()
  (with-current-buffer (find-file-noselect (expand-file-name "new.mod" (make-temp-file "n" t)))
    (should-not (derived-mode-p 'ob0-mode))
    (insert "MODULE N; END N.\n")
    (let ((inhibit-message t)) (save-buffer))
    (should (derived-mode-p 'ob0-mode))))

(ert-deftest columns ()
  (with-text "MODULE\na\U0001f600b\nEND"
    (let ((at (lambda (column) (goto-char 9) (ob0--move-to-column column) (- (point) 8))))
      (should (equal (mapcar at '(0 1 2 3 4 5 99)) '(0 1 1 2 3 3 3))))))

(ert-deftest comments ()
  (with-text "x := 1"
    (comment-region (point-min) (point-max))
    (should (equal (buffer-string) "(* x := 1 *)"))))

(ert-deftest index ()
  (with-text "MODULE M;\nPROCEDURE P; END P;\n  PROCEDURE Q(x: INTEGER); END Q;\nEND M.\n"
    (should (equal (mapcar #'car (imenu--make-index-alist t)) '("*Rescan*" "P" "Q")))))

(defun line-after (text command)
  "The line that point is in after COMMAND from the first TEXT."
  (goto-char (point-min))
  (search-forward text)
  (funcall command)
  (string-trim (buffer-substring (line-beginning-position) (line-end-position))))

(ert-deftest defuns ()
  (with-text "MODULE M; (* PROCEDURE C; *)\n  PROCEDURE P;\n    PROCEDURE Q;\n    BEGIN\n      IF TRUE THEN WriteLn END\n    END Q;\n  BEGIN\n    Write(1)\n  END P;\n  PROCEDURE R;\n  END R;\nBEGIN\n  P\nEND M.\n"
    (dolist (it '(("TRUE" "PROCEDURE Q;") ("Write(1" "PROCEDURE P;") ("END R" "PROCEDURE R;") ("\n  P\n" "MODULE M; (* PROCEDURE C; *)")))
      (should (equal (line-after (car it) #'beginning-of-defun) (cadr it))))
    ;; (from a start to the one before)
    (should (equal (line-after "END R" (lambda () (beginning-of-defun) (beginning-of-defun))) "PROCEDURE Q;"))
    (dolist (it '(("TRUE" "END Q;") ("Write(1" "END P;") ("END R" "END R;") ("\n  P\n" "END M.")))
      (should (equal (line-after (car it) (lambda () (end-of-defun) (skip-chars-backward "\n"))) (cadr it))))
    (should (equal (line-after "Write(1" (lambda () (narrow-to-defun) (goto-char (point-max)) (skip-chars-backward "\n"))) "END P;"))
    (goto-char (point-min))
    (should (looking-at "  PROCEDURE P;"))))

(ert-deftest check ()
  (let ((file (make-temp-file "c" nil ".mod" "MODULE M;\nBEGIN x := 1 END M.\n")))
    (with-current-buffer (find-file-noselect file)
      (let ((buffer (save-window-excursion (ob0-check) (get-buffer "*ob0-check*"))))
        ;; (the last thing that is done at its end is to part it from the buffer)
        (with-timeout (300 (error "The check did not end"))
          (while (get-buffer-process buffer) (accept-process-output nil 0.1)))
        (with-current-buffer buffer
          (goto-char (point-min))
          (should (search-forward "\nline 2, column 7: Undeclared: not declared\n" nil t))
          (goto-char (point-min))
          (compilation-next-error 1)
          (let* ((message (get-text-property (point) 'compilation-message))
                 (place (compilation--message->loc message)))
            (should (equal (list (cadr place) (car place)) '(2 7)))
            (should (equal (caar (compilation--loc->file-struct place)) file))))))))

(ert-deftest run ()
  (let ((file (make-temp-file "r" nil ".mod" "MODULE M; VAR x: INTEGER; BEGIN Read(x); Write(x + x) END M.\n")))
    (with-current-buffer (find-file-noselect file)
      (save-window-excursion (ob0-run "21"))
      (with-current-buffer "*ob0-run*" (should (equal (buffer-string) " 42")))
      ;; (what runs is what the buffer has, saved or not)
      (goto-char (point-min))
      (search-forward "x + x")
      (replace-match "x + 1")
      (let ((inhibit-message t)) (save-window-excursion (ob0-run "21")))
      (with-current-buffer "*ob0-run*" (should (equal (buffer-string) " 22"))))))

(ert-deftest runs-no-module-with-errors ()
  (let ((file (make-temp-file "e" nil ".mod" "MODULE M;\nBEGIN x := 1 END M.\n")))
    (with-current-buffer (find-file-noselect file)
      (save-window-excursion (should-error (ob0-run "") :type 'user-error))
      (with-timeout (300 (error "The check did not end"))
        (while (get-buffer-process "*ob0-check*") (accept-process-output nil 0.1)))
      (with-current-buffer "*ob0-check*"
        (goto-char (point-min))
        (should (search-forward "\nline 2, column 7: Undeclared: not declared\n" nil t))))))

(ert-deftest no-program ()
  (with-temp-buffer
    (ob0-mode)
    (setq buffer-file-name "/tmp/m.mod")
    (let* ((ob0-program "no-such-program")
           (said (list (should-error (ob0-run "") :type 'user-error) (should-error (ob0-check) :type 'user-error))))
      (setq buffer-file-name nil)
      (dolist (it said) (should (string-match-p "no program no-such-program" (cadr it)))))))
