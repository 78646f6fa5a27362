;;; Drives the server from Emacs by lsp-mode, in batch mode.  -*- lexical-binding: t -*-
;; It is loaded after an init file that sets up `ob0-mode' and lsp-mode.
;; Variables: OB0_FILE (the file to edit), OB0_REPORT (where the findings go, a line of JSON each),
;; OB0_STEPS (the name of a list of steps below); what a list of steps needs besides is in OB0_GIVEN, as JSON.
(require 'lsp-mode)
(require 'flymake)
(require 'json)

(setq make-backup-files nil
      create-lockfiles nil
      auto-save-default nil
      lsp-response-timeout 300
      lsp-idle-delay 0.05
      lsp-debounce-full-sync-notifications-interval 0.05
      lsp-diagnostics-provider :none
      lsp-restart 'ignore
      lsp-keep-workspace-alive nil
      lsp-enable-file-watchers nil
      lsp-enable-suggest-server-download nil
      lsp-session-file (expand-file-name "session" (getenv "HOME")))

(defvar ob0-given (json-parse-string (or (getenv "OB0_GIVEN") "{}") :object-type 'alist :array-type 'list)
  "What the steps need besides the text.")
(defvar ob0-published nil "The version of the text that the last publication is of.")

(defun ob0-report (step found)
  "Writes what was FOUND in a STEP."
  (let ((coding-system-for-write 'utf-8))
    (write-region (concat (json-serialize `(:step ,step :found ,found)) "\n") nil (getenv "OB0_REPORT") t 'silent)))

(defun ob0-await (what holds)
  "Waits for WHAT until HOLDS gives something."
  (with-timeout (300 (error "Waited in vain for %s" what))
    (while (not (funcall holds))
      (accept-process-output nil 0.01))))

(advice-add 'lsp--on-diagnostics :after (lambda (_ params) (setq ob0-published (gethash "version" params))))

(defun ob0-shown ()
  "The diagnostics that lsp-mode holds for this buffer."
  (vconcat
   (mapcar (lambda (it)
             (let ((start (gethash "start" (gethash "range" it)))
                   (end (gethash "end" (gethash "range" it))))
               (vector (gethash "line" start) (gethash "character" start) (gethash "line" end) (gethash "character" end)
                       (gethash "code" it) (gethash "message" it))))
           (lsp--get-buffer-diagnostics))))

(defun ob0-after (change)
  "Makes a CHANGE and gives what is shown once the server has sent what it has to say of the text after it."
  (let ((before lsp--cur-version))
    (funcall change)
    ;; (lsp-mode sends a notification for each edit of a list, and the server answers each)
    (ob0-await "diagnostics" (lambda () (and (> lsp--cur-version before) (eql ob0-published lsp--cur-version))))
    (ob0-shown)))

(defun ob0-goto (line character)
  "Goes to a place, both counted from 0."
  (goto-char (point-min))
  (forward-line line)
  (forward-char character))

(defun ob0-text ()
  "The text of the buffer."
  (buffer-substring-no-properties (point-min) (point-max)))

(defun ob0-mending ()
  "A faulty text is replaced by a mended one."
  (ob0-report "mended" (ob0-after (lambda () (erase-buffer) (insert (alist-get 'mended ob0-given))))))

(defun ob0-looking ()
  "Queries as lsp-mode makes them, at each of the places that are given."
  (dolist (place (alist-get 'places ob0-given))
    (apply #'ob0-goto place)
    (ob0-report "shown" (gethash "value" (lsp:hover-contents (lsp-request "textDocument/hover" (lsp--text-document-position-params)))))
    (ob0-report "listed" (vconcat (mapcar (lambda (it)
                                          (let ((at (xref-item-location it)))
                                            (vector (1- (xref-file-location-line at)) (xref-file-location-column at))))
                                        (xref-backend-references 'xref-lsp (xref-backend-identifier-at-point 'xref-lsp)))))
    (xref-find-definitions (xref-backend-identifier-at-point 'xref-lsp))
    (ob0-report "jumped" (vector (1- (line-number-at-pos)) (current-column)))))

(defun ob0-rename ()
  "A rename as lsp-mode requests it and applies it."
  (apply #'ob0-goto (alist-get 'place ob0-given))
  (ob0-report "renamed" (ob0-after (lambda () (lsp-rename (alist-get 'name ob0-given)))))
  (ob0-report "text" (ob0-text)))

(defun ob0-acting ()
  "A code action of the title that is given is chosen of those that are offered."
  (apply #'ob0-goto (alist-get 'place ob0-given))
  (let* ((actions (lsp-code-actions-at-point))
         (titles (mapcar #'lsp:code-action-title actions))
         (chosen (seq-find (lambda (it) (equal (lsp:code-action-title it) (alist-get 'title ob0-given))) actions)))
    (ob0-report "acted" (ob0-after (lambda () (lsp-execute-code-action chosen))))
    (ob0-report "offered" (vconcat titles))
    (ob0-report "text" (ob0-text))))

(defun ob0-format ()
  "A layout as lsp-mode requests it and applies it."
  (ob0-report "formatted" (ob0-after #'lsp-format-buffer))
  (ob0-report "text" (ob0-text)))

(defun ob0-said-by (command)
  "What the user reads after a COMMAND that is refused."
  (condition-case why (progn (funcall command) "nothing") (error (error-message-string why))))

(defun ob0-refused ()
  "Renames that are refused, and what is asked while the module has an error."
  (dolist (it (alist-get 'renames ob0-given))
    (apply #'ob0-goto (car it))
    (ob0-report (cadr it) (ob0-said-by (lambda () (lsp-rename (cadr it))))))
  (ob0-after (lambda () (ob0-goto 0 0) (end-of-line) (insert "$")))
  (ob0-goto 1 4)
  (ob0-report "rename" (ob0-said-by (lambda () (lsp-rename "q"))))
  (ob0-report "definition" (ob0-said-by (lambda () (xref-find-definitions (xref-backend-identifier-at-point 'xref-lsp)))))
  (ob0-report "format" (ob0-said-by #'lsp-format-buffer))
  (ob0-goto 1 4)
  (ob0-report "prompt" (ob0-said-by (lambda () (call-interactively #'lsp-rename)))))

(defun ob0-unread ()
  "What is told to the server of a text that can't be told, and after a message that it can't read."
  (let* ((told nil)
         (said nil)
         (tell (lambda (method &rest _) (push (substring method (length "textDocument/")) told)))
         (say (lambda (text &rest more)
                (let ((it (and text (apply #'format text more))))
                  (when (and it (string-prefix-p "ob0: " it)) (push it said)))))
         (after (lambda (step does count)
                  (setq told nil said nil)
                  (funcall does)
                  (ob0-await "what is told" (lambda () (accept-process-output nil 0.05) (>= (length told) count)))
                  (ob0-report step (vector (string-join (reverse told) " ") (string-join (reverse said) " | "))))))
    (advice-add 'lsp-notify :before tell)
    (advice-add 'message :before say)
    (ob0-goto 1 0)
    (funcall after "half a pair" (lambda () (insert (string ?\( ?* #xd83d ?* ?\)))) 4)
    (funcall after "still" (lambda () (insert " ")) 1)
    (funcall after "mended" (lambda () (delete-region 11 17)) 1)
    (advice-remove 'lsp-notify tell)
    (ob0-report "read" (ob0-after (lambda () (insert "$"))))
    (advice-add 'lsp-notify :before tell)
    (funcall after "no message"
             (lambda () (process-send-string (lsp--workspace-proc (car (lsp-workspaces))) "Content-Length: 1\r\n\r\n{")) 2)
    (advice-remove 'message say)
    (advice-remove 'lsp-notify tell)))

(defun ob0-hinted ()
  "The diagnostics with their hints; of a changed text, and with other hints; and of a valid text."
  (let ((hinted (lambda ()
                  (ob0-await "hints" (lambda ()
                                     (seq-some (lambda (it) (string-match-p "hint:" (gethash "message" it)))
                                               (lsp--get-buffer-diagnostics))))
                  (ob0-shown))))
    (ob0-report "hinted" (funcall hinted))
    (ob0-report "changed" (ob0-after (lambda () (ob0-goto 3 2) (delete-region (point) (line-end-position)) (insert "x := 1;"))))
    (ob0-report "hinted again" (funcall hinted))
    (ob0-report "mended" (ob0-after (lambda () (ob0-goto 4 2) (delete-region (point) (line-end-position)) (insert "WriteLn"))))))

(defun ob0-formatted ()
  "A layout and whether it changes something, the same once more, and the file that is written then."
  (dotimes (_ 2)
    (let ((tick (buffer-chars-modified-tick)))
      (lsp-format-buffer)
      (ob0-report "changes" (if (> (buffer-chars-modified-tick) tick) t :false))))
  (save-buffer)
  (ob0-report "file" (with-temp-buffer
                     (let ((coding-system-for-read 'utf-8-unix)) (insert-file-contents (getenv "OB0_FILE")))
                     (buffer-string))))

(defun ob0-run-steps ()
  "Opens the file, which starts the server on it, takes the steps and ends."
  (find-file (getenv "OB0_FILE"))
  (unless (eq major-mode 'ob0-mode) (error "The file was taken as %s" major-mode))
  (ob0-await "the first diagnostics" (lambda () ob0-published))
  (ob0-report "opened" (ob0-shown))
  (funcall (intern (concat "ob0-" (getenv "OB0_STEPS"))))
  (lsp-disconnect))

(condition-case why
    (ob0-run-steps)
  (error (ob0-report "failed" (error-message-string why))
         (kill-emacs 1)))
(kill-emacs 0)
