;;; ob0-mode-autoloads.el --- What Emacs does at its start where ob0 is installed  -*- lexical-binding: t; no-byte-compile: t -*-

;;; Commentary:

;; `ob0-mode' for files that end in .ob0, and for modules that end in .mod.

;;; Code:

(add-to-list 'load-path (file-name-directory (or load-file-name buffer-file-name)))
(autoload 'ob0-mode "ob0-mode" "Major mode for Oberon-0." t)
(autoload 'ob0-maybe-mode "ob0-mode" "Take `ob0-mode' if the first word is MODULE." nil)
(autoload 'ob0-maybe-mode-once-saved "ob0-mode" "Take `ob0-mode' for a file that begins with MODULE now." nil)
(add-hook 'after-save-hook #'ob0-maybe-mode-once-saved)
(add-to-list 'auto-mode-alist '("\\.ob0\\'" . ob0-mode))
(add-to-list 'auto-mode-alist '("\\.[Mm]od\\'" . ob0-maybe-mode))

(provide 'ob0-mode-autoloads)
;;; ob0-mode-autoloads.el ends here
