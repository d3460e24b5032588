;;; otp-mode.el --- grammars of otp (*.otp)  -*- lexical-binding: t -*-

;; In your init file: (load "FOLDER/tools/editors/otp-mode.el")

(defvar otp-mode-syntax-table
  (let ((table (make-syntax-table)))
    (modify-syntax-entry ?\; "<" table)
    (modify-syntax-entry ?\n ">" table)
    (modify-syntax-entry ?_ "w" table)
    (modify-syntax-entry ?\[ "." table)
    (modify-syntax-entry ?\] "." table)
    table)
  "Comments reach from `;' to the end of the line; brackets are edges and need no partner.")

(defvar otp-mode-font-lock-keywords
  '(("^[ \t]*\\(otp\\)[ \t]+1\\_>" 1 font-lock-preprocessor-face)
    ("^[ \t]*\\(tier\\|letter\\|constraint\\)[ \t]+\\([A-Za-z0-9_]+\\)"
     (1 font-lock-keyword-face) (2 font-lock-variable-name-face))
    ("\\_<\\(input\\|overt\\|hidden\\)\\_>[ \t]*\\(;.*\\)?$" 1 font-lock-type-face)
    ("\\_<\\(and\\|or\\)\\_>" . font-lock-builtin-face)
    ("->\\|#\\|=" . font-lock-constant-face)
    ("[][]" . font-lock-function-name-face)
    ("[^][A-Za-z0-9_=# \t\n\r>;-]" 0 font-lock-warning-face))
  "What is highlighted outside comments; the last entry are bytes that begin no token.")

;;;###autoload
(define-derived-mode otp-mode prog-mode "Otp"
  "Mode for grammars of ranked primitive constraints."
  (setq-local comment-start "; ")
  (setq-local comment-end "")
  (setq-local font-lock-defaults '(otp-mode-font-lock-keywords)))

;;;###autoload
(add-to-list 'auto-mode-alist '("\\.otp\\'" . otp-mode))

(provide 'otp-mode)
;;; otp-mode.el ends here
