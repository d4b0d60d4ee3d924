;;; planning.el --- what Org makes of an entry  -*- lexical-binding: t -*-
;; Standard input has lines of TEXT (a Lisp string), a tab, `schedule' or `deadline', a tab, DATE or "none"; each is
;; answered by the text after it, as a Lisp string.
(require 'org)
(setq org-adapt-indentation nil org-todo-keywords '((sequence "TODO" "|" "DONE")))
(condition-case nil
    (while t
      (pcase-let ((`(,text ,word ,date) (split-string (read-string "") "\t")))
        (with-temp-buffer
          (let ((org-inhibit-startup t)) (org-mode))
          (insert (read text))
          (goto-char (point-min))
          (let ((run (if (equal word "schedule") #'org-schedule #'org-deadline)))
            (if (equal date "none") (funcall run '(4)) (funcall run nil date)))
          (let ((print-escape-newlines t))
            (prin1 (buffer-substring-no-properties (point-min) (point-max)))
            (princ "\n")))))
  (end-of-file nil))
