;;; orgstore-package-tests.el --- With other packages  -*- lexical-binding: t; -*-

;; SPDX-License-Identifier: MIT OR Apache-2.0

;; This file is not part of GNU Emacs.

;;; Commentary:

;; A session with each of org-roam, org-crypt, evil and undo-tree, as Debian has
;; them.  Where a package isn't installed its test says that it is skipped.

;;; Code:

(require 'orgstore-test-support)
(require 'org-crypt)
(setq ost-file (or load-file-name buffer-file-name))

(defvar org-roam-db-location)
(defvar org-roam-directory)
(defvar org-roam-capture-templates)
(defvar evil-undo-system)
(defvar undo-tree-auto-save-history)
(defvar undo-tree-visualizer-diff)
(declare-function org-roam-db-autosync-mode "ext:org-roam-db")
(declare-function org-roam-db-query "ext:org-roam-db")
(declare-function org-roam-db-sync "ext:org-roam-db")
(declare-function org-roam-capture- "ext:org-roam-capture")
(declare-function org-roam-node-create "ext:org-roam-node")
(declare-function org-roam-extract-subtree "ext:org-roam-node")
(declare-function org-roam-refile "ext:org-roam-node")
(declare-function org-roam-node-from-title-or-alias "ext:org-roam-node")
(declare-function evil-mode "ext:evil-core")
(declare-function global-undo-tree-mode "ext:undo-tree")
(declare-function undo-tree-undo "ext:undo-tree")
(declare-function undo-tree-redo "ext:undo-tree")

;; Emacs -Q hasn't Debian's packages on its load-path.  Those in elpa are compiled
;; by the Emacs that is installed, and another one may not run them.
(dolist (it (append (and (string-prefix-p "/usr/" invocation-directory)
                         (file-expand-wildcards "/usr/share/emacs/site-lisp/elpa/*-[0-9]*"))
                    (file-expand-wildcards "/usr/share/emacs/site-lisp/elpa-src/*-[0-9]*")))
  (unless (string-match-p "/org-[0-9]\\|/orgstore-" it)
    (add-to-list 'load-path it t)))

(defun ost-needs (library)
  "Load LIBRARY, or skip the test; plain Org does without."
  (unless (require library nil t)
    (if ost-plain (error "Not installed: %s" library)
      (ert-skip (format "%s isn't installed" library)))))

;;;; org-roam

(defconst ost-roam-files
  '(("one.org" . ":PROPERTIES:\n:ID: one\n:END:\n#+title: One\n* Part\n:PROPERTIES:\n:ID: part\n:END:\ntext [[id:two][Two]]\n* Rest\n")
    ("two.org" . ":PROPERTIES:\n:ID: two\n:END:\n#+title: Two\n"))
  "The files of org-roam's session.")

(defun ost-roam-titles ()
  "Return the titles that org-roam's database has, with their files."
  (sort (mapcar (pcase-lambda (`(,title ,file)) (format "%s in %s" title (file-name-nondirectory file)))
                (org-roam-db-query [:select [title file] :from nodes]))
        #'string<))

(defun ost-needs-database ()
  "Skip the test where org-roam's database doesn't run in this Emacs."
  (condition-case err (org-roam-db-query [:select 1])
    (error (if ost-plain (signal (car err) (cdr err))
             (ert-skip (format "The database of org-roam doesn't run here: %s"
                               (error-message-string err)))))))

(ost-scenario org-roam ost-roam-files
  (ost-needs 'org-roam)
  (let ((org-roam-directory (directory-file-name ost-dir))
        (org-roam-db-location (expand-file-name "roam.db" ost-beside))
        (org-id-locations (make-hash-table :test #'equal))
        (org-roam-verbose nil))
    (unwind-protect
        (progn
          (ost-needs-database)
          (org-roam-db-autosync-mode 1)
          (org-roam-db-sync)
          (ost-open "one.org" "Rest")
          (ost-cmd 1 (org-id-get-create) (save-buffer))
          ;; Its database follows what a step saves.
          (should (member "Rest in one.org" (ost-roam-titles)))
          (ost-open "one.org")
          (ost-cmd 1 (ost-refile "Part" "two.org"))
          (should (member "Part in two.org" (ost-roam-titles)))
          (should-not (member "Part in one.org" (ost-roam-titles)))
          (let ((org-roam-capture-templates
                 '(("d" "default" plain "%?" :target (file+head "new.org" "#+title: ${title}\n") :unnarrowed t))))
            (org-roam-capture- :node (org-roam-node-create :title "New")
                               :keys "d" :templates org-roam-capture-templates)
            (insert "typed\n")
            (ost-cmd nil (org-capture-finalize)))
          (should (member "New in new.org" (ost-roam-titles)))
          (ost-open "two.org" "Part")
          (ost-cmd 1 (ost-keys "M-x org-roam-refile RET New RET"))
          (should (member "Part in new.org" (ost-roam-titles)))
          (ost-open "one.org" "Rest")
          (ost-cmd 1 (org-archive-subtree))
          (should-not (member "Rest in one.org" (ost-roam-titles))))
      (org-roam-db-autosync-mode -1)
      ;; The database isn't compared.
      (ignore-errors (org-roam-db--close-all))
      (delete-file org-roam-db-location))))

;;;; org-crypt, with a key of its own

(defun ost-make-key ()
  "Make a key for tests without a passphrase, and return its folder, or nil."
  (when (and (executable-find "gpg") (executable-find "gpg-agent"))
    (let ((home (make-temp-file "ostgpg" t)))
      (set-file-modes home #o700)
      (and (equal 0 (call-process "gpg" nil nil nil "--homedir" home "--batch" "--passphrase" ""
                                  "--quick-generate-key" "tests@orgstore.example" "default" "default" "never"))
           home))))

(ost-alone org-crypt '(("a.org" . "* Secrets :crypt:\nthe word is hunter2\n* Other\n") ("b.org" . "* Box\n"))
  (let ((home (or (ost-make-key) (ert-skip "gpg isn't installed"))))
    (unwind-protect
        (let ((process-environment (cons (concat "GNUPGHOME=" home) process-environment))
              (org-crypt-key "tests@orgstore.example")
              (org-crypt-disable-auto-save t)
              (org-tags-exclude-from-inheritance '("crypt"))
              (before-save-hook before-save-hook)
              (org-mode-hook org-mode-hook)
              epg-gpg-home-directory)
          (setq org-capture-templates `(("s" "" entry (file+headline ,(ost-path "b.org") "Box")
                                         "* New :crypt:\nalso hunter2 %?")))
          (org-crypt-use-before-save-magic)
          (ost-open "a.org" "Other")
          (org-crypt-use-before-save-magic)
          (ost-cmd nil (org-todo "TODO"))
          (ost-cmd nil (ost-capture "s" "typed"))
          (ost-open "a.org")
          (ost-cmd nil (ost-refile "Secrets" "b.org" "Box"))
          ;; On no disk stands the word itself, not in the journal either.
          (dolist (file (directory-files-recursively ost-base ""))
            (unless (string-match-p "/log\\'" file)
              (should-not (string-search "hunter2" (ost-bytes file)))))
          (should (string-search "BEGIN PGP MESSAGE" (ost-disk "b.org")))
          (ost-open "b.org" "Secrets")
          (org-decrypt-entry)
          (should (string-search "the word is hunter2" (buffer-string)))
          (ost-cmd nil (save-buffer))
          (should-not (string-search "hunter2" (ost-disk "b.org"))))
      (call-process "gpgconf" nil nil nil "--homedir" home "--kill" "all")
      (delete-directory home t))))

;;;; evil and undo-tree

(defconst ost-evil-files
  '(("a.org" . "* TODO One\ntext\n* Two\n* Three\n") ("b.org" . "* Box\n"))
  "The files of evil's session.")

(ost-scenario evil ost-evil-files
  (ost-needs 'evil)
  (let ((evil-undo-system 'undo-redo)
        (org-refile-targets '((org-agenda-files :maxlevel . 1)))
        (org-use-fast-todo-selection nil))
    (unwind-protect
        (progn
          (evil-mode 1)
          (ost-open "b.org")
          (ost-open "a.org")
          (buffer-enable-undo)
          (ost-keys "g g C-c C-t")
          (ost-keys "j A SPC typed <escape> : w RET")
          (unless ost-plain (should-not (ost-modified)))
          ;; Lines deleted here and put there.
          (ost-keys "/ Two RET d d")
          (ost-keys ": b SPC b.org RET G p")
          (unless ost-plain (should (= 2 (length (ost-modified)))))
          (ost-keys ": w RET")
          (unless ost-plain (should-not (ost-modified)))
          (ost-open "a.org" "Three")
          (ost-keys "C-c C-w Box SPC (b.org) RET")
          (unless ost-plain (should-not (ost-modified)))
          (ost-open "a.org")
          (ost-keys "u : w RET")
          (ost-open "b.org")
          (ost-keys "u : w RET"))
      (evil-mode -1))))

(ost-scenario undo-tree ost-evil-files
  (ost-needs 'undo-tree)
  (let ((undo-tree-auto-save-history nil) (org-use-fast-todo-selection nil))
    (unwind-protect
        (progn
          (global-undo-tree-mode 1)
          (ost-open "b.org") (buffer-enable-undo) (undo-tree-mode 1)
          (ost-open "a.org" "One") (buffer-enable-undo) (undo-tree-mode 1)
          (ost-keys "C-c C-t")
          (ost-cmd 1 (ost-refile "Two" "b.org" "Box"))
          (ost-open "a.org")
          (ost-keys "C-_")
          (ost-cmd nil (save-buffer))
          (ost-keys "M-_")
          (ost-cmd nil (save-buffer))
          (ost-open "b.org")
          (ost-keys "C-_")
          (ost-cmd nil (save-buffer)))
      (global-undo-tree-mode -1))))

(provide 'orgstore-package-tests)
;;; orgstore-package-tests.el ends here
