;;; sif.el --- Smalltalk interchange files  -*- lexical-binding: t; -*-

;; Emacs 29 and later, or an older one with the package eglot. Put into init.el:
;;   (load "/path/to/checkout/tools/editors/sif.el")
;; In a buffer of an interchange file, `M-x eglot' starts the language server.

;;; Code:

(defvar sif-folder
  (expand-file-name "../.." (file-name-directory (or load-file-name buffer-file-name)))
  "The folder of the checkout, in which tools/language-server stands.")

(defvar sif-mode-syntax-table
  (let ((table (make-syntax-table)))
    (modify-syntax-entry ?\" "!" table)
    (modify-syntax-entry ?' "\"" table)
    (modify-syntax-entry ?_ "w" table)
    (modify-syntax-entry ?# "'" table)
    (modify-syntax-entry ?$ "/" table)
    (modify-syntax-entry ?! "." table)
    table)
  "Comments stand in double quotes, strings in single ones.")

(defvar sif-font-lock-keywords
  `((,(rx bow (or "nil" "true" "false") eow) . font-lock-constant-face)
    (,(rx bow (or "self" "super" "Transcript") eow) . font-lock-builtin-face)
    (,(rx bow (any "A-Za-z_") (* (any "A-Za-z0-9_")) ":") . font-lock-function-name-face)
    (,(rx "#" (+ (any "A-Za-z0-9_:"))) . font-lock-constant-face)
    (,(rx bow (any "A-Z") (* (any "A-Za-z0-9_")) eow) . font-lock-type-face)
    (,(rx (or ":=" "^")) . font-lock-keyword-face))
  "What is coloured in an interchange file.")

;;;###autoload
(define-derived-mode sif-mode prog-mode "SIF"
  "Smalltalk interchange files (ANSI NCITS 319-1998, section 4)."
  (setq-local comment-start "\"")
  (setq-local comment-end "\"")
  (setq-local indent-tabs-mode t)
  (setq-local font-lock-defaults '(sif-font-lock-keywords)))

;;;###autoload
(add-to-list 'auto-mode-alist '("\\.sif\\'" . sif-mode))

(defvar eglot-server-programs)
(with-eval-after-load 'eglot
  (add-to-list 'eglot-server-programs
               `(sif-mode . (,(expand-file-name "tools/language-server" sif-folder)))))

(provide 'sif)
;;; sif.el ends here
