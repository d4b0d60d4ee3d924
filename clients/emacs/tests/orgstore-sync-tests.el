;;; orgstore-sync-tests.el --- Syncs, conflicts, what isn't synced  -*- lexical-binding: t; -*-

;; SPDX-License-Identifier: MIT OR Apache-2.0

;; This file is not part of GNU Emacs.

;;; Commentary:

;; `orgs' is the real one where it needs the store alone, and else a script that
;; says what it would say, and changes a file.

;;; Code:

(require 'orgstore-test-support)
(unless ost-plain (require 'orgstore-sync) (require 'orgstore-setup))

(defvar orgstore-orgs)
(declare-function orgstore-keep-ours "orgstore-sync")
(declare-function orgstore-take-theirs "orgstore-sync")
(declare-function orgstore-conflicts "orgstore-sync")
(declare-function orgstore-sync "orgstore-sync")
(declare-function orgstore--offer-ignoring "orgstore-setup")

(defconst ost-marked "* A\none\n* B :CONFLICT:\ntwo\n: CONFLICT: three\n* C\n"
  "A text with a mark.")

(defun ost-script (text)
  "Have the script TEXT be the command `orgs'."
  (let ((file (expand-file-name "orgs" ost-base)))
    (write-region (concat "#!/bin/sh\n" text) nil file nil 'quiet)
    (set-file-modes file #o755)
    (setq orgstore-orgs file)))

(defun ost-real-orgs ()
  "Have the real `orgs' be the command."
  (setq orgstore-orgs (or (getenv "ORGSTORE_ORGS") (error "No ORGSTORE_ORGS"))))

(ost-alone sync-shows-the-merge '(("a.org" . "* A\n* B\n"))
  (ost-script (format "[ \"$2 $3 $4\" = '%s --json sync' ] || exit 9
cat %sa.org > %ssaved
printf '* A\\n* B\\n* From the phone\\n' > %sa.org
echo '{\"reply\": \"note\", \"file\": \"a.org\", \"title\": \"B\", \"what\": \"kept against a deletion\", \"theirs\": \"\"}'
echo '{\"reply\": \"ok\", \"remote\": \"origin\", \"came\": 1, \"went\": 0, \"conflicts\": 0}'\n"
                      ost-dir ost-dir ost-base ost-dir))
  (ost-open "a.org" "A")
  (end-of-line)
  (insert " typed")
  (orgstore-sync)
  (should (equal (ost-bytes (expand-file-name "saved" ost-base)) "* A typed\n* B\n"))
  (should (equal (with-current-buffer "a.org" (buffer-string)) "* A\n* B\n* From the phone\n"))
  (should (string-match-p
           (regexp-quote (format "- [[file:%sa.org::*B][a.org: B]]  note: kept against a deletion\n" ost-dir))
           (with-current-buffer "*orgstore sync*" (buffer-string)))))

(ost-alone sync-refused '(("a.org" . "* A\n"))
  (ost-script "echo '{\"reply\": \"refused\", \"name\": \"Busy\", \"message\": \"another runs\"}'; exit 1\n")
  (ost-open "a.org")
  (should (equal (cadr (should-error (orgstore-sync) :type 'user-error)) "another runs")))

(ost-alone conflicts-are-listed (list (cons "a.org" ost-marked))
  (ost-real-orgs)
  (ost-open "a.org")
  (orgstore-conflicts)
  (should (string-suffix-p
           (format "- [[file:%sa.org::5][a.org:5]]  B\n  : ours    two\n  : theirs  three\n" ost-dir)
           (with-current-buffer "*orgstore sync*" (buffer-string)))))

(ost-alone keys-on-a-mark (list (cons "a.org" ost-marked))
  (ost-real-orgs)
  (ost-open "a.org")
  (should-not (memq (key-binding (kbd "C-c <")) '(orgstore-keep-ours orgstore-take-theirs)))
  (re-search-forward "CONFLICT: three")
  (should (eq (key-binding (kbd "C-c <")) 'orgstore-keep-ours))
  (should (eq (key-binding (kbd "C-c >")) 'orgstore-take-theirs))
  (orgstore-take-theirs)
  (should (equal (ost-disk "a.org") "* A\none\n* B\nthree\n* C\n"))
  (should (equal (buffer-string) (ost-disk "a.org"))))

(ost-alone ours-is-kept (list (cons "a.org" ost-marked))
  (ost-real-orgs)
  (ost-open "a.org")
  (re-search-forward "CONFLICT: three")
  (orgstore-keep-ours)
  (should (equal (ost-disk "a.org") "* A\none\n* B\ntwo\n* C\n")))

(ost-alone a-sync-is-half-done '(("a.org" . "* A\n"))
  (let ((record (expand-file-name "orgstore-sync.org_archive" ost-dir)))
    (write-region "# Written\n0123 1/2\n" nil record nil 'quiet)
    (ost-open "a.org" "A")
    (end-of-line)
    (insert " typed")
    (should (string-match-p "A sync of .* is half done" (cadr (should-error (save-buffer)))))
    (should (equal (ost-disk "a.org") "* A\n"))
    (write-region "# Written\n0123 2/2\n" nil record nil 'quiet)
    (save-buffer)
    (should (equal (ost-disk "a.org") "* A typed\n"))
    (delete-file record)))

(ost-alone lines-for-git-and-syncthing '(("a.org" . "* A\n"))
  (let ((ignore (expand-file-name ".gitignore" ost-dir)) (questions 0))
    (make-directory (expand-file-name ".git" ost-dir))
    (make-directory (expand-file-name ".stfolder" ost-base))
    (write-region "*.pdf" nil ignore nil 'quiet)
    (cl-letf (((symbol-function 'y-or-n-p) (lambda (_) (cl-incf questions))))
      (orgstore--offer-ignoring ost-dir)
      (orgstore--offer-ignoring ost-dir))
    (should (= questions 2))
    (should (equal (ost-bytes ignore) "*.pdf\norgstore.journal\norgstore-sync.org_archive\n"))
    (should (equal (ost-bytes (expand-file-name ".stignore" ost-base))
                   "orgstore.journal\norgstore-sync.org_archive\n"))))

(provide 'orgstore-sync-tests)
;;; orgstore-sync-tests.el ends here
