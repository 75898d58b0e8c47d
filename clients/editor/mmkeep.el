;;; mmkeep.el --- Metamath databases in emacs  -*- lexical-binding: t -*-

;; (load "PATH/clients/editor/mmkeep.el"), and then
;; - files that end in .mm are in `metamath-mode', with colours for comments, keywords, labels and proofs;
;; - M-x eglot shows what mmkeep finds while you type, if the package eglot is there (elpa-eglot on Debian 12);
;; - M-x compile with `mmkeep verify FILE' finds the places of a report.

;;; Code:

(defvar metamath-mode-syntax-table
  (let ((table (make-syntax-table)))
    ;; Words of Metamath are parted by white space alone.
    (dolist (letter (number-sequence ?! ?~))
      (modify-syntax-entry letter "w" table))
    table))

(defconst metamath-font-lock-keywords
  '(("\\(\\<\\S-+\\)\\s-+\\$[aefp]\\>" (1 font-lock-function-name-face))
    ("\\<\\$[][cvdfeap.{}=]\\>" (0 font-lock-keyword-face))
    ("\\<\\$=\\s-+\\((\\s-[^)]*)\\)" (1 font-lock-variable-name-face)))
  "What is coloured in a Metamath database, beside comments.")

(defconst metamath-syntax-propertize
  (syntax-propertize-rules
   ("\\<\\(\\$\\)(\\>" (1 "!"))
   ("\\<\\$\\()\\)\\>" (1 "!")))
  "Where comments begin and end.")

(define-derived-mode metamath-mode prog-mode "Metamath"
  "A mode for Metamath databases."
  (setq-local comment-start "$( ")
  (setq-local comment-end " $)")
  (setq-local syntax-propertize-function metamath-syntax-propertize)
  (setq-local font-lock-multiline t)
  (setq-local font-lock-defaults '(metamath-font-lock-keywords)))

(add-to-list 'auto-mode-alist '("\\.mm\\'" . metamath-mode))

(defvar mmkeep-server
  (let ((near (expand-file-name "../python/bin/mmkeep-lsp" (file-name-directory (or load-file-name buffer-file-name)))))
    (if (file-executable-p near) near "mmkeep-lsp"))
  "The language server: that of this file's clone, or the one on the path.")

(defvar eglot-server-programs)
(with-eval-after-load 'eglot
  (add-to-list 'eglot-server-programs (list 'metamath-mode mmkeep-server)))

(require 'compile)

(add-to-list 'compilation-error-regexp-alist-alist
             '(mmkeep
               "^\\(?:fault\\|wrong [^ \n]+\\|\\(incomplete [^ \n]+\\)\\|mmkeep:\\) \\(.+\\):\\([0-9]+\\):\\([0-9]+\\)\\(?: [FPT][0-9][0-9].*\\)?$"
               2 3 4 (1)))
(add-to-list 'compilation-error-regexp-alist 'mmkeep)
;; Columns of a report are bytes, counted from 1.
(setq-default compilation-first-column 1)

(provide 'mmkeep)
;;; mmkeep.el ends here
