;;; orgstore-plain-tests.el --- Commands beside plain Org  -*- lexical-binding: t; -*-

;; SPDX-License-Identifier: MIT OR Apache-2.0

;; This file is not part of GNU Emacs.

;;; Commentary:

;; Each command, in many settings, by plain Org and by the store.

;;; Code:

(require 'orgstore-test-support)
(setq ost-file (or load-file-name buffer-file-name))

(defconst ost-ab '(("a.org" . "#+TITLE: A\n* One\ntext\n** Child\n* Two\n* Run\nfirst\n* Run\nsecond\n")
                  ("b.org" . "* Target\n** There\n* Last\n")))

;;;; Saves

(ost-scenario save ost-ab
  (ost-open "a.org" "Two") (end-of-line) (insert " more\nbody ünï\\\t\n")
  (ost-cmd 1 (save-buffer))
  (ost-open "a.org" "One") (kill-line 1)
  (ost-cmd 1 (ost-keys "C-x C-s"))
  (ost-cmd 0 (save-buffer)))

(ost-scenario save-no-newline '(("a.org" . "* A"))
  (ost-open "a.org") (goto-char (point-max)) (insert "B")
  (let ((require-final-newline nil) (mode-require-final-newline nil))
    (setq-local require-final-newline nil) (ost-cmd 1 (save-buffer)))
  (insert "C") (setq-local require-final-newline t) (ost-cmd 1 (save-buffer)))

(ost-scenario save-codings
    `(("crlf.org" . "* A\r\nx\r\n* B\r\n") ("latin.org" . "# -*- coding: latin-1 -*-\n* B\374ro\nx\n")
      ("bom.org" . "\357\273\277* A\nx\n") ("mac.org" . "* A\rb\r") ("bin.org" . "* A\n\377\376\200 \303\274\nx\n")
      ("both.org" . "\357\273\277* \303\274\r\nx\r\n"))
  (dolist (name '("crlf.org" "latin.org" "bom.org" "mac.org" "bin.org" "both.org"))
    (ost-open name) (goto-char (point-max)) (insert "* New é\n") (when (equal name "bin.org") (delete-char -3) (insert "e\n"))
    (ost-cmd 1 (save-buffer))))

(ost-scenario save-new-file nil
  (ost-open "new.org") (insert "* A\n") (ost-cmd 1 (save-buffer))
  (ost-open "new2.org_archive") (insert "* A\n") (ost-cmd 1 (save-buffer)))

(ost-scenario save-all ost-ab
  (ost-open "a.org" "One") (insert "x\n") (ost-open "b.org" "Last") (insert "y\n")
  (ost-cmd 1 (org-save-all-org-buffers))
  (ost-open "a.org" "One") (insert "x\n") (ost-open "b.org" "Last") (insert "y\n")
  (ost-cmd 1 (save-some-buffers t)))

(ost-scenario save-hooks ost-ab
  (let* (log
         (before (lambda () (when buffer-file-name
                              (push (cons 'before (buffer-name)) log)
                              (save-excursion (goto-char (point-min))
                                              (while (re-search-forward "secret" nil t) (replace-match "XXXX"))))))
         (after (lambda () (when buffer-file-name
                             (push (list 'after (buffer-name) (string-search "secret" (ost-bytes buffer-file-name))
                                         (buffer-modified-p)
                                         (equal (buffer-string) (decode-coding-string (ost-bytes buffer-file-name) 'utf-8)))
                                   log)))))
    (let ((before-save-hook (list before)) (after-save-hook (list after)))
      (ost-open "a.org" "Two") (end-of-line) (insert " secret")
      (ost-cmd 1 (save-buffer))
      (ost-open "a.org" "Two") (end-of-line) (insert "\na secret here")
      (ost-cmd 1 (ost-refile "Two" "b.org" "There"))
      (unless ost-plain
        (should (= 3 (length (seq-filter (lambda (it) (eq (car it) 'before)) log))))
        (should (equal (seq-filter (lambda (it) (eq (car it) 'after)) (reverse log))
                       '((after "a.org" nil nil t) (after "a.org" nil nil t) (after "b.org" nil nil t))))
        (should-not (string-search "secret" (ost-disk "orgstore.journal")))))))

(ost-scenario backups ost-ab
  (let ((make-backup-files t) (version-control nil))
    (ost-open "a.org" "Two") (insert "x\n") (ost-cmd 1 (save-buffer)) (insert "y\n") (ost-cmd 1 (save-buffer))))

;; What was in a buffer when it visited another file says nothing of this one.
(defconst ost-lists '(("list.org" . "* TODO Call Ann\n* TODO Pay rent\n") ("monday.org" . "* TODO Buy milk\n* TODO Run 50km\n")))

(ost-scenario write-file-over-one-of-its-size ost-lists
  (ost-open "list.org") (goto-char (point-max)) (insert "* TODO Three\n")
  (ost-cmd 1 (write-file (ost-path "monday.org"))))

(ost-scenario write-file-unchanged-over-one-of-its-size ost-lists
  (ost-open "list.org")
  (ost-cmd 1 (write-file (ost-path "monday.org"))))

(ost-scenario set-visited-to-one-of-its-size ost-lists
  (ost-open "list.org") (set-visited-file-name (ost-path "monday.org") t) (goto-char (point-max)) (insert "* TODO Three\n")
  (ost-cmd 1 (save-buffer)))

(defun ost-point (link target)
  "Have the link LINK of the served folder lead to TARGET there."
  (make-symbolic-link (ost-path target) (ost-path link) t))

(ost-scenario link-that-leads-elsewhere '(("11.org" . "* A\n* B\n") ("12.org" . "* December\n* B\n* C\n"))
  (ost-point "current.org" "11.org")
  (ost-open "current.org" "B") (insert "* Eleven\n")
  (ost-cmd 1 (save-buffer))
  (ost-point "current.org" "12.org") (revert-buffer t t)
  (goto-char (point-max)) (insert "* Twelve\n")
  (ost-cmd 1 (save-buffer))
  (ost-open "current.org" "B") (ost-cmd 1 (org-todo "TODO"))
  (should (equal (ost-disk "11.org") "* A\n* Eleven\n* B\n")))

;; As one folder is copied, with its times, to where it is to be from now on.
(ost-scenario folder-link-that-leads-elsewhere '(("old/a.org" . "* A\n* B\n") ("new/b.org" . "* X\n"))
  (ost-point "now" "old")
  (ost-open "now/a.org" "B") (ost-cmd 1 (org-todo "TODO"))
  (copy-file (ost-path "old/a.org") (ost-path "new/a.org") t t)
  (delete-file (ost-path "now"))
  (ost-point "now" "new")
  (ost-open "now/a.org") (goto-char (point-max)) (insert "* C\n")
  (ost-cmd 1 (save-buffer))
  (ost-cmd 1 (ost-refile "B" "now/b.org" "X"))
  (should (equal (ost-disk "old/a.org") "* A\n* TODO B\n")))

;; Such a file Emacs takes for the one that it read, and writes its own text.
(ost-scenario file-put-back-with-its-time '(("a.org" . "* ABC\n* D\n"))
  (let ((time (encode-time '(0 0 0 1 1 2026 nil nil nil))))
    (set-file-times (ost-path "a.org") time)
    (ost-open "a.org")
    (ost-write "a.org" "* XYZ\n* D\n")
    (set-file-times (ost-path "a.org") time)
    (goto-char (point-max)) (insert "typed\n")
    (ost-cmd 1 (save-buffer))))

;; A hook of the user's that puts the text right, and calls it unmodified.
(ost-scenario hook-of-a-visit '(("a.org" . "* ABC\n* D\n"))
  (let ((find-file-hook
         (cons (lambda ()
                 (goto-char (point-min))
                 (when (search-forward "ABC" nil t) (replace-match "XYZ"))
                 (set-buffer-modified-p nil))
               find-file-hook)))
    (ost-open "a.org")
    (goto-char (point-max)) (insert "typed\n")
    (ost-cmd 1 (save-buffer))))

;;;; Refile, archive

(ost-scenario refile ost-ab
  (ost-open "a.org") (ost-cmd 1 (ost-refile "One" "b.org" "There"))
  (ost-open "b.org") (ost-cmd 1 (ost-refile "Last" "a.org"))
  (ost-open "a.org") (ost-cmd 1 (ost-refile "Last" "a.org" "Two")))

(ost-scenario refile-twins ost-ab
  (ost-open "a.org") (ost-cmd 1 (ost-refile "Run" "b.org" "There"))
  (ost-open "a.org") (ost-cmd 1 (ost-refile "Run" "b.org" "There"))
  (ost-open "b.org" "Run") (ost-cmd 1 (org-todo "TODO"))
  (ost-cmd 1 (org-archive-subtree)))

(ost-scenario refile-settings ost-ab
  (let ((org-log-refile 'time) (org-reverse-note-order t)
        (org-after-refile-insert-hook (list (lambda () (org-set-property "R" "1")))))
    (ost-open "a.org") (ost-cmd 1 (ost-refile "One" "b.org" "Target"))
    (ost-open "a.org" "Run") (push-mark (point) t t) (goto-char (point-max)) (activate-mark)
    (let ((transient-mark-mode t))
      (ost-cmd 1 (org-refile nil nil (list "Target" (ost-path "b.org") nil 1))))))

(ost-scenario refile-keys ost-ab
  (let ((org-refile-targets '((org-agenda-files :maxlevel . 3))) (org-refile-use-outline-path 'file)
        (org-outline-path-complete-in-steps nil))
    (ost-open "a.org" "Two")
    (cl-letf (((symbol-function 'completing-read)
               (lambda (_p table &rest _) (car (seq-find (lambda (it) (string-match-p "There" (car it))) table)))))
      (ost-cmd 1 (ost-keys "C-c C-w")))))

(ost-scenario refile-headings-many
    (list (cons "a.org" (mapconcat (lambda (i) (format "* H%d\nbody %d\n" i i)) (number-sequence 1 400) ""))
          (cons "b.org" "* T\n"))
  (ost-open "a.org") (ost-cmd 1 (ost-refile "H200" "a.org" "H7"))
  (ost-open "a.org") (goto-char (point-min)) (insert "text\n") (goto-char (point-min))
  (ost-cmd 1 (org-sort-entries nil ?A) (save-buffer))
  (ost-open "a.org") (ost-cmd 1 (ost-refile "H399" "b.org" "T")))

(pcase-dolist (`(,name ,location)
               '((default "%s_archive::") (head "::* Finished")
                 (filehead "%s_archive::* Finished Tasks")
                 (datetree "done.org::datetree/")
                 (datehead "%s_archive::datetree/* Done") (sub "%s_archive::** Below")
                 (elsewhere "../beside/arch.org::* X")))
  (ost-define (intern (format "archive-%s" name)) ost-ab
              (lambda ()
                (let ((org-archive-location location))
                  (dolist (title '("Run" "One" "Run"))
                    (ost-open "a.org" title)
                    (ost-cmd nil (org-archive-subtree)))))))

(ost-scenario archive-property '(("a.org" . "#+ARCHIVE: x.org::* Fin\n* A\n:PROPERTIES:\n:ARCHIVE: y.org::datetree/\n:END:\n** B\n* C\n"))
  (ost-open "a.org" "B") (ost-cmd 1 (org-archive-subtree))
  (ost-open "a.org" "C") (ost-cmd 1 (org-archive-subtree)))

(ost-scenario archive-settings '(("a.org" . "#+FILETAGS: :f:\n* P :p:\n** TODO A\n** TODO B\n** DONE C\n"))
  (let ((org-archive-mark-done t) (org-archive-subtree-add-inherited-tags t) (org-archive-reversed-order t)
        (org-archive-subtree-save-file-p nil) (org-archive-file-header-format "# head %s\n"))
    (ost-open "a.org" "A") (ost-cmd 1 (org-archive-subtree))
    (ost-open "a.org" "C") (ost-cmd 1 (org-archive-subtree))))

(ost-scenario archive-region '(("a.org" . "* P\n** A\n** B\n** C\n"))
  (let ((org-loop-over-headlines-in-active-region t) (transient-mark-mode t))
    (ost-open "a.org" "A") (push-mark (point) t t) (goto-char (point-max)) (activate-mark)
    ;; Org 9.7 ends in an error where nothing is left after the entry.
    (ost-cmd 1 (ignore-errors (org-archive-subtree)) (save-some-buffers t))))

(ost-scenario archive-sibling ost-ab
  (ost-open "a.org" "Child") (ost-cmd 1 (org-archive-to-archive-sibling))
  (ost-open "a.org" "Run") (ost-cmd 1 (org-archive-to-archive-sibling))
  (let ((org-archive-default-command 'org-archive-set-tag))
    (ost-open "a.org" "Two") (ost-cmd 1 (org-archive-subtree-default))))

;;;; TODO states

(ost-scenario todo
    '(("a.org" . "#+TODO: TODO(t) NEXT(n!) WAIT?(w@/!) ЗАДАЧА | DONE(d!) ✓FERTIG(f@)\n* TODO A\n* TODO A\n* B\nDEADLINE: <2026-07-01 Wed +1m>\n:PROPERTIES:\n:REPEAT_TO_STATE: NEXT\n:END:\n* ЗАДАЧА C\n"))
  (ost-open "a.org" "A") (ost-cmd 1 (org-todo "DONE") (org-add-log-note))
  (forward-line 1) (re-search-forward "^\\* TODO A") (ost-cmd nil (org-todo "NEXT") (org-add-log-note))
  (ost-open "a.org" "B") (ost-cmd nil (org-todo "WAIT?") (ost-note "because"))
  (ost-open "a.org" "B") (ost-cmd nil (org-todo "✓FERTIG") (ost-note "done so"))
  (ost-open "a.org" "C") (ost-cmd 1 (org-todo 'right) (when (memq 'org-add-log-note post-command-hook) (org-add-log-note)))
  (ost-open "a.org" "A") (ost-cmd 1 (org-todo "")))

(ost-scenario todo-drawer
    '(("a.org" . "#+STARTUP: logdrawer lognotedone\n* P [0/1]\n** TODO A\n* TODO Habit\nSCHEDULED: <2026-06-28 Sun .+1d>\n:PROPERTIES:\n:STYLE: habit\n:REPEAT_TO_STATE: NEXT\n:END:\n"))
  (let ((org-log-done 'note) (org-log-into-drawer t) (org-log-repeat 'time)
        (org-todo-keywords '((sequence "TODO" "NEXT" "|" "DONE")))
        (org-after-todo-state-change-hook (list (lambda () (org-set-property "S" org-state)))))
    (ost-open "a.org" "A") (org-mode-restart) (ost-open "a.org" "A")
    (ost-cmd nil (org-todo "DONE") (ost-note "all well"))
    (ost-open "a.org" "Habit") (ost-cmd nil (org-todo "DONE") (when (memq 'org-add-log-note post-command-hook) (org-add-log-note)))))

(ost-scenario todo-keys '(("a.org" . "* TODO A\n* TODO B\nSCHEDULED: <2026-07-01 Wed>\n"))
  (ost-open "a.org" "A") (ost-cmd 1 (ost-keys "C-c C-t")) (ost-cmd 1 (ost-keys "S-<right>"))
  (ost-open "a.org" "B") (ost-cmd 1 (org-schedule nil "2026-07-09")) (ost-cmd 1 (org-deadline nil "2026-08-01"))
  (ost-cmd 1 (org-schedule '(4))))

;;;; Clocks

(ost-scenario clocks ost-ab
  (ost-open "a.org" "One") (ost-cmd 1 (org-clock-in))
  (ost-open "b.org" "Last") (ost-cmd 1 (org-clock-in))
  (ost-open "a.org" "Two") (ost-cmd 1 (org-clock-out))
  (ost-cmd 1 (org-clock-in)) (ost-cmd 1 (org-clock-cancel)))

(ost-scenario clock-hook ost-ab
  (let ((org-clock-out-hook (list (lambda () (org-todo "DONE")))) (org-clock-into-drawer nil))
    (ost-open "a.org" "One") (ost-cmd 1 (org-clock-in))
    (ost-open "b.org" "Last") (ost-cmd 1 (org-clock-out))))

(ost-scenario clock-refile ost-ab
  (ost-open "a.org" "One") (ost-cmd 1 (org-clock-in)) (ost-open "a.org")
  (ost-cmd 1 (ost-refile "One" "b.org" "There"))
  (should (equal (buffer-name (marker-buffer org-clock-marker)) "b.org"))
  (ost-cmd 1 (org-clock-out)))

;;;; Capture

(ost-scenario capture-types
    '(("a.org" . "#+TODO: NEXT WAIT | FIN\n* Inbox [0/0]\n* Two\n** Items\n- old\n** Tab\n| a | b |\n|---+---|\n| 1 | 2 |\n** Check [0/1]\n- [ ] x\n")
      ("b.org" . "* Target\n"))
  (setq org-capture-templates
        `(("e" "" entry (file+headline ,(ost-path "a.org") "Inbox") "* NEXT %?\n%U\n")
          ("f" "" entry (file ,(ost-path "b.org")) "* %?" :empty-lines 1)
          ("p" "" entry (file+headline ,(ost-path "a.org") "Nowhere") "* %?" :prepend t)
          ("i" "" item (file+olp ,(ost-path "a.org") "Two" "Items") "%?")
          ("c" "" checkitem (file+olp ,(ost-path "a.org") "Two" "Check") "[ ] %?")
          ("t" "" table-line (file+olp ,(ost-path "a.org") "Two" "Tab") "| %? | 4 |")
          ("l" "" plain (file+headline ,(ost-path "b.org") "Target") "plain %?")
          ("d" "" entry (file+olp+datetree ,(ost-path "b.org")) "* %U %?")
          ("w" "" entry (file+olp+datetree ,(ost-path "new.org")) "* %?" :tree-type week)
          ("m" "" entry (file ,(ost-path "b.org")) "* Now" :immediate-finish t)
          ("n" "" entry (function (lambda () (set-buffer (find-file-noselect (ost-path "b.org"))) (goto-char (point-min)))) "* fn %?")))
  (ost-cmd 1 (ost-capture "e" "Call" (lambda () (org-todo "WAIT"))))
  (dolist (key '("f" "p" "i" "c" "t" "l" "d" "w" "m" "n")) (ost-cmd 1 (ost-capture key "Text é"))))

(ost-scenario capture-clock ost-ab
  (setq org-capture-templates `(("c" "" entry (file+headline ,(ost-path "b.org") "Last") "* Call %?" :clock-in t :clock-resume t)
                                ("k" "" entry (file+headline ,(ost-path "b.org") "Last") "* Keep %?" :clock-in t :clock-keep t)
                                ("x" "" entry (file ,(ost-path "b.org")) "* Kill %?" :kill-buffer t)))
  (ost-open "a.org" "One") (ost-cmd 1 (org-clock-in))
  (ost-cmd 1 (ost-capture "c" "Ann"))
  (ost-cmd 1 (ost-capture "k" "it"))
  (ost-cmd 1 (org-clock-out))
  (kill-buffer "b.org") (ost-cmd 1 (ost-capture "x" "me"))
  (should-not (get-buffer "b.org")))

(ost-scenario capture-refile ost-ab
  (setq org-capture-templates `(("c" "" entry (file+headline ,(ost-path "b.org") "Last") "* Call %?\nbody\n")))
  (org-capture nil "c") (insert "Ann")
  (cl-letf (((symbol-function 'org-refile-get-location)
             (lambda (&rest _) (list "Two" (ost-path "a.org") nil
                                     (with-current-buffer (find-file-noselect (ost-path "a.org"))
                                       (save-excursion (goto-char (point-min)) (re-search-forward "^\\* Two") (line-beginning-position)))))))
    (ost-cmd 2 (org-capture-refile))))

(ost-scenario capture-abort ost-ab
  (setq org-capture-templates `(("c" "" entry (file+headline ,(ost-path "b.org") "Last") "* Call %?" :clock-in t)
                                ("n" "" entry (file ,(ost-path "a.org")) "* Unsaved %?" :no-save t)))
  (org-capture nil "c") (insert "Ann") (ost-cmd 0 (org-capture-kill))
  (ost-capture "n" "x")
  (unless ost-plain (should (= 1 (length (ost-modified))))))

;; What Org made for the target stays when the capture is given up.
(ost-scenario capture-abort-of-new-target ost-ab
  (setq org-capture-templates `(("h" "" entry (file+headline ,(ost-path "b.org") "Made") "* Call %?")
                                ("d" "" entry (file+olp+datetree ,(ost-path "a.org")) "* %?")))
  (dolist (key '("h" "d"))
    (org-capture nil key) (insert "Ann") (ost-cmd 1 (org-capture-kill))))

(ost-scenario capture-attach ost-ab
  (setq org-capture-templates `(("c" "" entry (file+headline ,(ost-path "b.org") "Last") "* Doc %?")))
  (write-region "pdf" nil (expand-file-name "doc.pdf" ost-beside) nil 'quiet)
  (org-capture nil "c") (insert "it")
  (org-attach-attach (expand-file-name "doc.pdf" ost-beside) nil 'mv)
  (ost-cmd 1 (org-capture-finalize))
  (should (file-exists-p (ost-path "data/id/-1/doc.pdf"))))

(ost-scenario capture-hooks ost-ab
  (let* ((seen nil) (org-capture-before-finalize-hook (list (lambda () (org-id-get-create) (org-set-tags ":h:"))))
         (org-capture-after-finalize-hook (list (lambda () (push (and (string-search "Ann" (ost-disk "b.org")) t) seen)))))
    (unless ost-plain (add-hook 'org-capture-after-finalize-hook #'orgstore--captured -100))
    (setq org-capture-templates `(("c" "" entry (file+headline ,(ost-path "b.org") "Last") "* Call %?")))
    (ost-cmd 1 (ost-capture "c" "Ann"))
    (should (equal seen '(t)))))

;;;; Agenda

(defun ost-agenda (text)
  (org-todo-list) (goto-char (point-min)) (search-forward text) (beginning-of-line))

(defconst ost-tasks '(("a.org" . "* TODO Pay\n* TODO Buy\n** TODO Milk\n* TODO Same\n") ("b.org" . "* TODO Same\n* TODO Call\n* Box\n")))

(ost-scenario agenda ost-tasks
  (ost-agenda "Pay") (ost-cmd 1 (org-agenda-todo "DONE"))
  (ost-agenda "Milk") (ost-cmd 1 (org-agenda-archive))
  (ost-agenda "Call") (ost-cmd 1 (org-agenda-schedule nil "2026-07-04"))
  (ost-agenda "Buy") (ost-cmd 1 (org-agenda-refile nil (list "Box" (ost-path "b.org") nil (with-current-buffer (find-file-noselect (ost-path "b.org")) (save-excursion (goto-char (point-min)) (re-search-forward "^\\* Box") (line-beginning-position))))))
  (ost-agenda "Call") (ost-cmd 1 (org-agenda-clock-in)) (ost-cmd 1 (org-agenda-clock-out)) (ost-cmd 1 (org-agenda-set-tags "x" 'on)))

(ost-scenario agenda-keys ost-tasks
  (ost-agenda "Pay") (ost-cmd 1 (ost-keys "t")) (ost-agenda "Milk") (let (org-archive-default-command) (ost-cmd 1 (ost-keys "$")))
  (ost-agenda "Call") (ost-cmd 1 (ost-keys "t")) (ost-cmd 1 (ost-keys "C-_")))

(ost-scenario agenda-bulk ost-tasks
  (ost-agenda "Pay") (org-agenda-bulk-mark-all)
  (cl-letf (((symbol-function 'read-char-exclusive) (lambda (&rest _) ?t))
            ((symbol-function 'completing-read) (lambda (&rest _) "DONE")))
    (ost-cmd 1 (org-agenda-bulk-action)))
  (org-agenda-list) (org-todo-list) (org-agenda-quit))

(ost-scenario agenda-bulk-archive ost-tasks
  (ost-agenda "Pay") (org-agenda-bulk-mark-all)
  (cl-letf (((symbol-function 'read-char-exclusive) (lambda (&rest _) ?$)))
    (ost-cmd 1 (org-agenda-bulk-action))))

;;;; Others

(ost-scenario cut-and-paste ost-ab
  (ost-open "a.org" "One") (ost-keys "C-c C-x C-w")
  (ost-open "b.org" "Last") (ost-keys "C-c C-x C-y")
  (unless ost-plain (should (= 2 (length (ost-modified)))))
  (ost-cmd 1 (ost-keys "C-x C-s"))
  (ost-open "b.org" "Target") (push-mark (point) t t) (goto-char (point-max)) (ost-keys "C-w")
  (ost-open "a.org") (goto-char (point-max)) (ost-keys "C-y")
  (ost-cmd 1 (ost-keys "C-x C-s")))

(ost-scenario any-command ost-ab
  (ost-open "b.org") (ost-open "a.org")
  (ost-cmd 1 (ost-keys "M-x ost-move RET")))

(ost-scenario lisp-step ost-ab
  (ost-cmd 1
    (funcall (if ost-plain #'funcall 'orgstore-as-step)
             (lambda () (ost-open "a.org" "Two") (org-todo "TODO") (save-buffer) (org-archive-subtree)
               (ost-open "a.org") (ost-refile "One" "b.org" "Last")))))

(ost-scenario indirect-and-narrowed ost-ab
  (ost-open "a.org" "One") (org-tree-to-indirect-buffer) (set-buffer org-last-indirect-buffer)
  (goto-char (point-min)) (ost-cmd 1 (org-todo "TODO"))
  (goto-char (point-max)) (insert "more\n") (ost-cmd 1 (save-buffer))
  (ost-open "a.org" "Two") (org-narrow-to-subtree)
  (ost-cmd 1 (ignore-errors (org-archive-subtree)) (save-some-buffers t)))

(ost-scenario undo ost-ab
  (ost-open "a.org") (buffer-enable-undo) (undo-boundary)
  (ost-cmd 1 (ost-refile "One" "b.org" "There"))
  (set-buffer "a.org") (undo-boundary) (setq last-command nil) (undo)
  (set-buffer "b.org") (undo-boundary) (setq last-command nil) (undo))

(ost-scenario clock-idle-note ost-ab
  (let ((org-log-note-clock-out t) (org-clock-into-drawer "LB"))
    (ost-open "a.org" "One") (ost-cmd 1 (org-clock-in))
    (ost-open "a.org" "Two") (ost-cmd nil (org-clock-out) (ost-note "did it"))))

;; A loop of the user's own: what it calls is part of the command's step.
(defconst ost-hundred
  `(("a.org" . ,(apply #'concat "#+TODO: TODO | DONE(d!)\n" (mapcar (lambda (i) (format "* TODO A%d\n" i)) (number-sequence 1 50))))
    ("b.org" . ,(apply #'concat (mapcar (lambda (i) (format "* TODO B%d\n" i)) (number-sequence 1 50))))
    ("c.org" . "* Box\n")))

(defun ost-all-done ()
  "Have all entries of a.org and b.org be done."
  (interactive)
  (dolist (name '("a.org" "b.org"))
    (with-current-buffer (find-file-noselect (ost-path name))
      (org-map-entries (lambda () (org-todo 'done))))))

(defun ost-files-away ()
  "Refile an entry of each of two files, archive another, and set a tag."
  (interactive)
  (ost-open "a.org") (ost-refile "A7" "c.org" "Box")
  (ost-open "b.org") (ost-refile "B7" "c.org" "Box")
  (ost-open "b.org" "B9") (org-archive-subtree)
  (ost-open "c.org" "A7") (org-set-tags-command '(4)) (org-set-property "P" "v"))

(ost-scenario loop-of-a-command ost-hundred
  (ost-open "c.org")
  (ost-cmd 1 (ost-keys "M-x ost-all-done RET")))

(ost-scenario loop-over-files ost-hundred
  (ost-open "c.org")
  (ost-cmd 1 (ost-keys "M-x ost-files-away RET")))

(ost-scenario loop-after-typed-text ost-hundred
  (ost-open "b.org") (goto-char (point-max)) (insert "typed\n")
  (ost-cmd 1 (ost-files-away)))

;; The log of a state comes after the command, and is of the same step.
(ost-scenario loop-with-a-log ost-hundred
  (ost-open "a.org" "A3")
  (ost-cmd 1 (org-set-property "P" "v") (org-todo "DONE")))

;; What the loop saves or kills itself is on the disk then.
(defconst ost-three '(("a.org" . "* TODO A1\n* TODO A2\n") ("b.org" . "* TODO B1\n* TODO B2\n") ("c.org" . "* Box\n")))

(ost-scenario loop-that-saves ost-three
  (ost-cmd 2
    (dolist (name '("a.org" "b.org"))
      (ost-open name) (ost-refile "2" "c.org" "Box")
      (ost-open name "1") (org-todo "DONE") (save-buffer)
      (should (string-prefix-p "* DONE" (ost-disk name)))
      (unless ost-plain (should-not (ost-modified)))
      (kill-buffer))))

(ost-scenario loop-that-kills ost-three
  (ost-cmd 2
    (dolist (name '("a.org" "b.org"))
      (ost-open name "1") (org-todo "DONE") (when ost-plain (save-buffer)) (kill-buffer))))

;; More files than a record has room for.
(ost-scenario loop-over-many-files
    (mapcar (lambda (i) (cons (format "n%03d.org" i) (format "* One %d\n" i))) (number-sequence 1 300))
  (ost-cmd 2 (dotimes (i 300) (ost-open (format "n%03d.org" (1+ i))) (org-todo "TODO"))))

(ost-scenario map-entries ost-ab
  (ost-open "a.org")
  (ost-cmd 1 (funcall (if ost-plain #'funcall 'orgstore-as-step)
                     (lambda () (org-map-entries (lambda () (org-todo "TODO")) nil 'agenda)))))

(ost-scenario lists-of-folders '(("x/a.org" . "* A\n") ("y/b.org" . "* B\n") ("z/c.org" . "* C\n") (".git/d.org" . "* D\n") ("e.txt" . "* E\n"))
  (unless ost-plain (setq orgstore-directory (list (ost-path "x") (ost-path "y/"))))
  (ost-open "x/a.org" "A") (ost-cmd 1 (org-todo "TODO"))
  (ost-open "z/c.org" "C") (org-todo "TODO") (should (buffer-modified-p)) (save-buffer)
  (unless ost-plain
    (setq orgstore-directory ost-dir)
    (should-not (orgstore--file-place (ost-path ".git/d.org")))
    (should-not (orgstore--file-place (ost-path "e.txt")))
    (should (orgstore--file-place (ost-path "z/c.org")))))

(ost-scenario links '(("a.org" . "* A\n* B\n") ("real/t.org" . "* T\n"))
  (make-symbolic-link (ost-path "real/t.org") (ost-path "link.org"))
  (ost-open "a.org") (ost-cmd nil (ost-refile "A" "link.org" "T"))
  (should (file-symlink-p (ost-path "link.org"))))

(ost-scenario outline-moves ost-ab
  (ost-open "a.org" "Two") (org-metaup) (org-metaright) (org-set-property "P" "v") (org-set-tags ":t:")
  (ost-cmd 1 (save-buffer)))

(ost-scenario write-file-and-rename ost-ab
  (ost-open "a.org" "Two") (insert "x\n")
  (ost-cmd 1 (write-file (ost-path "other.org")))
  (ost-open "other.org" "One") (ost-cmd 1 (org-todo "TODO")))

(ost-scenario subfolders '(("a.org" . "* A\n* B\n") ("sub/c.org" . "* C\n") ("sub/deep/d.org" . "* D\n"))
  (ost-open "a.org") (ost-cmd 1 (ost-refile "A" "sub/c.org" "C"))
  (ost-open "sub/deep/d.org") (ost-cmd 1 (ost-refile "D" "a.org" "B"))
  (unless ost-plain
    (should (file-exists-p (ost-path "orgstore.journal")))
    (should-not (file-exists-p (ost-path "sub/orgstore.journal")))
    (should-not (file-exists-p (ost-path "sub/deep/orgstore.journal")))))

(ost-scenario outside-target ost-ab
  (write-region "* Out\n" nil (expand-file-name "o.org" ost-beside) nil 'quiet)
  (ost-open "a.org")
  (ost-cmd 1 (ost-refile "One" "../beside/o.org" "Out"))
  (unless ost-plain (should-not (buffer-modified-p (get-buffer "o.org")))))

(ost-scenario many-files
    (mapcar (lambda (i) (cons (format "f%03d.org" i) (format "* TODO T%d\n* X\n" i))) (number-sequence 1 300))
  (ost-open "f001.org") (ost-cmd 1 (ost-refile "T1" "f300.org" "X"))
  (dotimes (i 300) (ost-open (format "f%03d.org" (1+ i))) (goto-char (point-max)) (insert "end\n"))
  (ost-cmd 2 (org-save-all-org-buffers)))

(provide 'orgstore-plain-tests)
;;; orgstore-plain-tests.el ends here
