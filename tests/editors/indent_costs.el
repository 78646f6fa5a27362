;;; indent_costs.el --- Counts what indentation evaluates  -*- lexical-binding: t -*-

;; Prints for each file of OB0_FILES how many expressions of OB0_MODE, the source of ob0-mode, are evaluated to indent a line near
;; its end, and to indent all its lines: a list of pairs, as JSON. (Edebug counts them.)

(require 'edebug)
(require 'json)
(setq edebug-all-defs t
      edebug-initial-mode 'Go-nonstop
      inhibit-message t)
(with-current-buffer (find-file-noselect (getenv "OB0_MODE"))
  (eval-buffer))

(defun ob0-test-counts ()
  "The counts of all expressions that Edebug knows."
  (let ((found nil))
    (mapatoms (lambda (it) (when (get it 'edebug-freq-count) (push (get it 'edebug-freq-count) found))))
    found))

(defun ob0-test-count (action)
  "How many expressions are evaluated by ACTION."
  (dolist (it (ob0-test-counts))
    (fillarray it 0))
  (funcall action)
  (apply #'+ (mapcar (lambda (it) (apply #'+ (append it nil))) (ob0-test-counts))))

(defun ob0-test-costs (file)
  "The counts of a FILE."
  (with-current-buffer (find-file-noselect file)
    (ob0-mode)
    (goto-char (point-max))
    (forward-line -3)
    (vector (ob0-test-count #'ob0-indent-line)
            (ob0-test-count (lambda () (indent-region (point-min) (point-max)))))))

(princ (json-encode (vconcat (mapcar #'ob0-test-costs (json-parse-string (getenv "OB0_FILES") :array-type 'list)))))

;;; indent_costs.el ends here
