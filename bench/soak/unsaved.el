;;; unsaved.el --- A fault built in: some saves aren't done  -*- lexical-binding: t; -*-

;; SPDX-License-Identifier: MIT OR Apache-2.0

;; This file is not part of GNU Emacs.

;;; Commentary:

;; `bench/year --plant unsaved' has to find it.

;;; Code:

(require 'orgstore)

(defun unsaved-write (write entries)
  "Do WRITE with ENTRIES, but where one file alone gains an entry of the person's."
  (if (and (null (cdr entries))
           (seq-some (lambda (it) (string-match-p "k[0-9]\\{6\\}" (nth 2 it)))
                     (orgstore--entry-edits (car entries))))
      (setf (orgstore--entry-done (car entries)) t)
    (funcall write entries)))

(advice-add 'orgstore--write-folder :around #'unsaved-write)

(provide 'unsaved)
;;; unsaved.el ends here
