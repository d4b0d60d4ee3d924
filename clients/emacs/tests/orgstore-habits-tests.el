;;; orgstore-habits-tests.el --- Habits of Org users beside plain Org  -*- lexical-binding: t; -*-

;; SPDX-License-Identifier: MIT OR Apache-2.0

;; This file is not part of GNU Emacs.

;;; Commentary:

;; Settings, hooks and files as users have them, that a store could get in the way
;; of.  Each is done by plain Org and by the store: not the files alone have to be
;; the same, but what the user is asked and told too, which `ost-note-that' collects.

;;; Code:

(require 'orgstore-test-support)
(setq ost-file (or load-file-name buffer-file-name))

(defun ost-note-that (format &rest args)
  "Have FORMAT with ARGS be compared, as a line of a file beside the store."
  (let ((coding-system-for-write 'utf-8-unix))
    (write-region (concat (apply #'format format args) "\n") nil
                  (expand-file-name "noted" ost-beside) t 'quiet)))

(defun ost-templates (&rest templates)
  "Set `org-capture-templates' to TEMPLATES, their files being of the folder."
  (setq org-capture-templates
        (mapcar (pcase-lambda (`(,key ,type (,kind ,file . ,more) . ,rest))
                  `(,key ,key ,type (,kind ,(ost-path file) ,@more) ,@rest))
                templates)))

;; A file that is attached while capturing goes to the target's own folder.
(ost-scenario attach-while-capturing '(("a.org" . "* Inbox\n"))
  (let ((org-attach-method 'mv))
    (ost-write "doc.pdf" "PDF")
    (ost-write "img/pic.png" "PNG")
    (ost-templates '("n" entry (file+headline "a.org" "Inbox") "* foo\nbody %?"))
    (ost-open "a.org")
    (org-capture nil "n")
    (org-attach-attach (ost-path "doc.pdf"))
    (goto-char (point-max))
    (org-insert-link nil (concat "file:" (ost-path "img/pic.png")) "pic")
    (ost-cmd 1 (org-capture-finalize))
    (should (file-exists-p (ost-path "data/id/-1/doc.pdf")))))

;; A capture knows the states and tags of its target's file.
(ost-scenario states-while-capturing
    '(("a.org" . "#+TODO: NEXT WAIT | FIN\n#+TAGS: alpha beta\n* Inbox :alpha:\n* X :gamma:\n"))
  (ost-templates '("n" entry (file+headline "a.org" "Inbox") "* NEXT foo\nbody")
                 '("g" entry (file+headline "a.org" "Inbox") "* foo2 %^g\nbody")
                 '("s" entry (file+headline "a.org" "Inbox") "* sched\n%?"))
  (ost-open "a.org")
  (org-capture nil "n")
  (ost-cmd 1 (ost-keys "C-c C-t C-c C-c"))
  (cl-letf (((symbol-function 'completing-read-multiple)
             (lambda (_ table &rest _)
               (ost-note-that "offered: %S" (sort (delete-dups (all-completions "" table)) #'string<))
               '("x"))))
    (org-capture nil "g"))
  (ost-cmd 1 (ost-keys "C-c C-c"))
  (org-capture nil "s")
  (cl-letf (((symbol-function 'org-refile-get-location)
             (lambda (&rest _) (ost-location "a.org" "X"))))
    (ost-cmd 1 (ost-keys "C-c C-w"))))

;; A hook of the clock runs at the clocked entry.
(ost-scenario hook-of-the-clock '(("a.org" . "* TODO One\n") ("b.org" . "* TODO Other\n"))
  (let ((org-clock-out-hook (list (lambda () (org-todo "DONE")))))
    (ost-open "a.org" "One") (ost-cmd 1 (ost-keys "C-c C-x C-i"))
    (ost-open "b.org" "Other") (ost-cmd 1 (ost-keys "C-c C-x C-o"))))

;; What a hook takes out before a save is on no disk, in no file and no journal.
(ost-scenario hook-of-a-save '(("a.org" . "* Secrets :crypt:\n") ("b.org" . "* Q\n"))
  (ost-templates '("s" entry (file+headline "a.org" "Secrets") "* password is hunter2" :immediate-finish t))
  (let ((before-save-hook
         (list (lambda ()
                 (when (derived-mode-p 'org-mode)
                   (save-excursion
                     (goto-char (point-min))
                     (while (search-forward "hunter2" nil t) (replace-match "[ENCRYPTED]")))))))
        saved)
    (ost-open "a.org")
    (ost-cmd 1 (ost-capture "s"))
    (dolist (file (directory-files-recursively ost-base ""))
      (should-not (string-search "hunter2" (ost-bytes file))))
    (let ((after-save-hook (list (lambda () (push (buffer-name) saved)))))
      (ost-open "a.org")
      (ost-cmd 1 (ost-refile "Secrets" "b.org" "Q")))
    (ost-note-that "%S" (sort (delete-dups saved) #'string<))))

(ost-scenario odd-states
    '(("c.org" . "#+TODO: TODO WAIT? | DONE ✓FERTIG\n* WAIT? Two\n* ✓FERTIG Three\n"))
  (let ((org-use-fast-todo-selection nil))
    (ost-open "c.org" "Two") (ost-cmd 1 (ost-keys "C-c C-t"))
    (ost-open "c.org" "Three") (ost-cmd 1 (ost-keys "C-c C-t"))))

;; A file's ends of lines stay one kind, so that Org finds its properties again.
(ost-scenario ends-of-lines
    '(("a.org" . "* TODO One\r\nSCHEDULED: <2026-07-01 Wed +1d>\r\n:PROPERTIES:\r\n:Effort: 1\r\n:END:\r\n"))
  (let ((org-use-fast-todo-selection nil))
    (ost-open "a.org" "One")
    (ost-cmd 1 (ost-keys "C-c C-t"))
    (kill-buffer)
    (ost-open "a.org" "One")
    (ost-note-that "%S %S" buffer-file-coding-system (org-entry-get nil "Effort"))
    (should-not (string-match-p "[^\r]\n" (ost-disk "a.org")))))

(ost-scenario headlines-of-captures
    '(("a.org" . "* Proj A\n** Tasks\n* Proj B\n** Tasks\n* Inbox [0/0]\n"))
  (ost-templates '("i" entry (file+headline "a.org" "Inbox") "* TODO into inbox" :immediate-finish t)
                 '("n" entry (file+headline "a.org" "Tasks") "* TODO new one %?"))
  (ost-open "a.org")
  (ost-cmd 1 (ost-capture "i"))
  (org-capture nil "n")
  (ost-cmd 1 (ost-keys "hello C-c C-c")))

(ost-scenario what-is-logged
    '(("a.org" . "#+TODO: TODO(t) NEXT(n) | DONE(d!)\n* TODO Task\n* NEXT Habit\nSCHEDULED: <2026-06-30 Tue .+1d>\n:PROPERTIES:\n:STYLE: habit\n:REPEAT_TO_STATE: NEXT\n:END:\n")
      ("b.org" . "* TODO B\n") ("c.org" . "* half\nCLOSED: [2026-06-01 Mon 10:00]\n"))
  (let ((org-log-into-drawer t))
    (ost-open "a.org" "Task") (ost-cmd 1 (ost-keys "C-c C-t d"))
    (ost-open "a.org" "Habit") (ost-cmd 1 (ost-keys "C-c C-t d")))
  (let ((org-log-done 'note) (org-use-fast-todo-selection nil))
    (ost-open "b.org" "B") (ost-cmd 2 (ost-keys "C-c C-t a SPC note C-c C-c"))
    (ost-open "c.org" "half") (ost-cmd 1 (ost-keys "C-c C-t"))))

(ost-scenario place-of-the-archive '(("a.org" . "* TODO One\n* Two\n"))
  (let ((org-archive-location "%s_archive::* Finished Tasks"))
    (ost-open "a.org" "One") (ost-cmd 1 (ost-keys "C-c C-x C-s"))))

(ost-scenario undo-in-the-agenda '(("a.org" . "#+TODO: TODO(t) | DONE(d)\n* TODO One\n"))
  (ost-open "a.org")
  (org-todo-list "TODO")
  (goto-char (point-min))
  (search-forward "TODO One")
  (ost-cmd 1 (ost-keys "t d"))
  (ost-cmd 1 (ost-keys "C-_")))

;; An open clock somewhere is Org's to ask about, or not to.
(ost-scenario open-clock
    '(("a.org" . "* TODO One\n") ("z.org_archive" . "* Old\n:LOGBOOK:\nCLOCK: [2026-06-01 Mon 10:00]\n:END:\n"))
  (let (answer)
    (cl-letf (((symbol-function 'y-or-n-p)
               (lambda (prompt &rest _) (ost-note-that "asked: %s" prompt) answer)))
      (ost-open "a.org" "One") (ost-cmd 1 (ost-keys "C-c C-x C-i"))
      (setq answer t)
      (ost-cmd nil (ost-keys "C-c C-x C-i")))))

;; A folder may have more files than the program takes at once.
(ost-scenario many-files-of-a-folder
    (mapcar (lambda (i) (cons (format "n%03d.org" i) (format "* TODO One %d\n" i)))
            (number-sequence 0 256))
  (ost-open "n001.org" "One 1")
  (ost-cmd 1 (call-interactively #'org-todo))
  (ost-cmd 1 (org-archive-subtree))
  (ost-open "n002.org" "One 2")
  (ost-cmd 1 (org-clock-in)))

;; Settings of a file that is opened late count as those of the first one.
(ost-scenario settings-of-a-later-file
    '(("a.org" . "* One\n") ("b.org" . "#+STARTUP: logdrawer\n#+TODO: TODO WAIT(w@/!) | DONE(d!)\n* TODO Two\n"))
  (ost-open "a.org")
  (ost-open "b.org" "Two")
  (ost-note-that "%S" (get-buffer "*Warnings*"))
  (ost-cmd 2 (ost-keys "C-c C-t w why C-c C-c"))
  (ost-cmd 1 (ost-keys "C-c C-t d")))

(require 'org-inlinetask)
(ost-scenario inline-tasks
    '(("a.org" . "* A\n*************** TODO inline\n*************** END\ntext after\n"))
  (ost-open "a.org" "inline")
  ;; Org itself can't.
  (condition-case err (ost-keys "C-c C-x C-s")
    (error (ost-note-that "%s" (error-message-string err)))))

;; A path of titles that aren't ASCII goes to an archive of another coding system.
(ost-scenario codings-of-an-archive
    '(("d.org" . "-*- coding: latin-1 -*-\n* B\374ro\n** TODO plain\n") ("d.org_archive" . "* Früher\n"))
  (ost-open "d.org" "plain")
  (ost-cmd 1 (ost-keys "C-c C-x C-s"))
  (ost-open "d.org_archive")
  (ost-note-that "%S" buffer-file-coding-system))

(provide 'orgstore-habits-tests)
;;; orgstore-habits-tests.el ends here
