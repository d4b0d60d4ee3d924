;;; orgstore-test-support.el --- What the tests share  -*- lexical-binding: t; -*-

;; SPDX-License-Identifier: MIT OR Apache-2.0

;; This file is not part of GNU Emacs.

;;; Commentary:

;; A scenario is run twice over the same files: by a second Emacs without the mode,
;; which saves all buffers after each command, and by this one with the mode.  The
;; files that they leave have to be the same, byte for byte.  Within a scenario
;; `ost-cmd' is a command: with the mode all served buffers have to be saved after
;; it, by as many runs of the program as it names.
;;
;; `ost-alone' defines a test that is run with the mode alone.  Time and IDs stand
;; still in all of them.
;;
;; The runner, tests/clients/emacs, sets what the tests take from the environment:
;; ORGSTORE_PROGRAM, the program; ORGSTORE_STOPS, the preload library of
;; tests/stops.c.  Each run of the program writes a line into a log.  The file
;; `plan' says that the next run is to be ended at one of its calls: see `ost-plan'.

;;; Code:

(require 'cl-lib)
(require 'ert)
(require 'seq)
(require 'org)
(require 'org-agenda)
(require 'org-archive)
(require 'org-attach)
(require 'org-capture)
(require 'org-clock)
(require 'org-datetree)
(require 'org-id)
(require 'org-refile)

(defvar ost-plain (getenv "ORGSTORE_PLAIN")
  "The file for what plain Org leaves, where this is plain Org, else nil.")

(unless ost-plain (require 'orgstore))
(defvar orgstore-directory)
(defvar orgstore-program)
(defvar orgstore-timeout)
(defvar orgstore--history)
(defvar orgstore--bonds)
(declare-function orgstore-global-mode "orgstore")
(declare-function orgstore--find-program "orgstore-program")
(declare-function orgstore--before-command "orgstore-step")
(declare-function orgstore--after-command "orgstore-step")

(defvar ost-program (getenv "ORGSTORE_PROGRAM") "The program that is tested.")

(defvar ost-stops (or (getenv "ORGSTORE_STOPS") "")
  "The library of tests/stops.c.  It is empty where the program needs none.")

(defconst ost-base
  (file-name-as-directory
   (or (getenv "ORGSTORE_TEST_DIR")
       (file-truename (make-temp-file "orgstore-test-" t))))
  "The folder for everything that tests make, the same one in both Emacsen.")

(defconst ost-dir (expand-file-name "notes/" ost-base) "The served folder.")

(defconst ost-beside (expand-file-name "beside/" ost-base)
  "A folder that isn't served.")

(defvar ost-scenarios nil "Lists (NAME FILES FUNCTION), the last one first.")

(defvar ost-file nil "The file that defines the scenarios.")

(add-hook 'kill-emacs-hook (lambda () (delete-directory ost-base t)))

;;;; Time and IDs stand still

(defconst ost-now (encode-time '(0 5 10 1 7 2026 nil nil nil)))

(defvar ost-ids 0 "How many IDs were made.")

(advice-add 'current-time :override (lambda () ost-now))
(advice-add 'format-time-string :around
            (lambda (f format &optional time &rest more)
              (apply f format (or time ost-now) more)))
(advice-add 'float-time :around
            (lambda (f &optional time) (funcall f (or time ost-now))))
(advice-add 'org-id-new :override
            (lambda (&rest _) (format "id-%d" (cl-incf ost-ids))))
(advice-add 'org-id-locations-save :override #'ignore)

;; Org 9.7 keeps what it knows of a file, and the next test has another one of that name.
(defvar org-element-cache-persistent)
(setq org-element-cache-persistent nil)

;;;; Files

(defun ost-path (name)
  "Return the file NAME of the served folder."
  (expand-file-name name ost-dir))

(defun ost-bytes (file)
  "Return the bytes of FILE, none where it isn't there."
  (with-temp-buffer
    (set-buffer-multibyte nil)
    (when (file-exists-p file) (insert-file-contents-literally file))
    (buffer-string)))

(defun ost-disk (name)
  "Return the bytes of the served file NAME."
  (ost-bytes (ost-path name)))

(defun ost-write (name text)
  "Write TEXT to the served file NAME, behind Emacs's back."
  (let ((coding-system-for-write
         (if (multibyte-string-p text) 'utf-8-unix 'no-conversion))
        (file (ost-path name)))
    (make-directory (file-name-directory file) t)
    (write-region text nil file nil 'quiet)))

(defun ost-tree (dir)
  "Return the files of DIR with their bytes, without journals and empty files."
  (let (found)
    (dolist (file (directory-files-recursively dir "" nil))
      (let ((bytes (ost-bytes file)))
        (unless (or (equal bytes "")
                    (string-match-p "orgstore\\.journal\\'" file))
          (push (cons (file-relative-name file dir) bytes) found))))
    (nreverse found)))

(defun ost-differ (a b)
  "Return the files that differ in the trees A and B: lists (NAME BYTES BYTES)."
  (let ((a (apply #'append a)) (b (apply #'append b)))
    (delq nil (mapcar (lambda (name)
                        (let ((x (cdr (assoc name a))) (y (cdr (assoc name b))))
                          (unless (equal x y) (list name x y))))
                      (seq-uniq (append (mapcar #'car a) (mapcar #'car b)))))))

;;;; The program

(defun ost-program-file ()
  "Return the script that runs the program, and notes each run."
  (let ((file (expand-file-name "orgstore" ost-base)))
    (unless (file-exists-p file)
      (write-region
       (format "#!/bin/sh
echo \"$*\" >> '%slog'
[ -e '%splan' ] || exec '%s' \"$@\"
read -r how at < '%splan'
[ \"${how%%!}\" != \"$how\" ] || rm '%splan'
LD_PRELOAD='%s':\"$LD_PRELOAD\" STOPS_HOW=\"${how%%!}\" STOPS_AT=\"$at\" '%s' \"$@\"
status=$?
[ $status -ne 137 ] || { echo killed >> '%slog'; kill -9 $$; }
exit $status
" ost-base ost-base ost-program ost-base ost-base ost-stops ost-program ost-base)
       nil file nil 'quiet)
      (set-file-modes file #o755))
    file))

(defun ost-plan (how at)
  "Have the next run of the program be ended at its call AT, by HOW.
HOW is kill, stop or full as in tests/stops.c; with an exclamation mark after
it that is done at each run."
  (write-region (format "%s %d\n" how at) nil (expand-file-name "plan" ost-base)
                nil 'quiet))

(defun ost-planned ()
  "Return the file of the plan, which is gone when it was carried out."
  (expand-file-name "plan" ost-base))

(defun ost-log ()
  "Return what the runs of the program noted: a line each, and `killed'."
  (split-string (ost-bytes (expand-file-name "log" ost-base)) "\n" t))

(defun ost-runs ()
  "Return how often the program was run."
  (length (remove "killed" (ost-log))))

(defun ost-killed ()
  "Return how often it was killed."
  (- (length (ost-log)) (ost-runs)))

;;;; Commands

(defun ost-served ()
  "Return the buffers of served files."
  (seq-filter (lambda (it)
                (and (buffer-file-name it)
                     (string-prefix-p ost-dir (buffer-file-name it))
                     (string-match-p "\\.org\\(_archive\\)?\\'"
                                     (buffer-file-name it))))
              (buffer-list)))

(defun ost-modified ()
  "Return the buffers of served files that aren't saved."
  (seq-filter #'buffer-modified-p (ost-served)))

(defun ost-names (buffers)
  "Return the names of BUFFERS."
  (mapcar #'buffer-name buffers))

(defun ost-logged ()
  "Do what Org does after a command: log a note that needs no text."
  (when (and (memq 'org-add-log-note (default-value 'post-command-hook))
             (memq org-log-note-how '(time state)))
    (org-add-log-note)))

(defun ost-captures ()
  "Whether a capture is open."
  (seq-some (lambda (it) (buffer-local-value 'org-capture-mode it))
            (buffer-list)))

(defvar ost-typed nil "The names of buffers into which text was typed.")

(defun ost-command (steps function)
  "Do FUNCTION as a command, which takes STEPS runs of the program, or any."
  (let ((runs (ost-runs)) value)
    (unless ost-plain (orgstore--before-command))
    (setq value (funcall function))
    (unless ost-plain (orgstore--after-command))
    (ost-logged)
    (if ost-plain (unless (ost-captures) (org-save-all-org-buffers))
      (should-not (seq-difference (ost-names (ost-modified)) ost-typed))
      (when steps (should (equal steps (- (ost-runs) runs)))))
    value))

(defmacro ost-cmd (steps &rest body)
  "Do BODY as a command, which takes STEPS runs of the program, or any for nil."
  (declare (indent 1) (debug t))
  `(ost-command ,steps (lambda () ,@body)))

(defun ost-open (name &optional title)
  "Show the served file NAME, and go to TITLE in it."
  (set-buffer (find-file-noselect (ost-path name)))
  (switch-to-buffer (current-buffer))
  (widen)
  (goto-char (point-min))
  (when title
    (unless (re-search-forward (concat "^\\*+ .*" (regexp-quote title)) nil t)
      (error "No %s in %s" title name))
    (beginning-of-line))
  (current-buffer))

(defun ost-location (name target)
  "Return the heading TARGET of the file NAME as `org-refile' wants it."
  (list (or target name) (ost-path name) nil
        (and target
             (with-current-buffer (find-file-noselect (ost-path name))
               (save-excursion
                 (widen)
                 (goto-char (point-min))
                 (re-search-forward (concat "^\\*+ .*" (regexp-quote target)))
                 (line-beginning-position))))))

(defun ost-refile (title name &optional target)
  "Refile TITLE of this buffer below TARGET in the file NAME."
  (goto-char (point-min))
  (re-search-forward (concat "^\\*+ .*" (regexp-quote title)))
  (org-refile nil nil (ost-location name target)))

(defun ost-note (text)
  "Answer Org's note buffer with TEXT."
  (when (memq 'org-add-log-note (default-value 'post-command-hook))
    (org-add-log-note))
  (with-current-buffer "*Org Note*"
    (goto-char (point-max))
    (insert text)
    (org-store-log-note)))

(defun ost-capture (key &rest typed)
  "Capture by the template KEY, insert TYPED, and finish; call functions."
  (org-capture nil key)
  (dolist (it typed) (if (functionp it) (funcall it) (insert it)))
  (when (bound-and-true-p org-capture-mode) (org-capture-finalize)))

(defun ost-keys (keys)
  "Type KEYS."
  (execute-kbd-macro (kbd keys)))

(defun ost-move ()
  "Move the first line of a.org to b.org."
  (interactive)
  (let ((text (with-current-buffer "a.org"
                (goto-char (point-min))
                (delete-and-extract-region (point) (line-beginning-position 2)))))
    (with-current-buffer "b.org"
      (goto-char (point-max))
      (insert text))))

;;;; Running

(defun ost-close ()
  "Forget the clock, and kill all buffers of files."
  (when (org-clocking-p)
    (ignore-errors (let (org-clock-out-hook) (org-clock-cancel))))
  (move-marker org-clock-marker nil)
  (dolist (buffer (buffer-list))
    (when (and (buffer-live-p buffer)
               (or (buffer-file-name buffer) (buffer-base-buffer buffer)
                   (string-match-p "Agenda\\|Org Note" (buffer-name buffer))))
      (with-current-buffer buffer
        (set-buffer-modified-p nil)
        (let (kill-buffer-hook kill-buffer-query-functions) (kill-buffer))))))

(defun ost-start (files)
  "Make the folders anew, with FILES, and forget what was before."
  (ost-close)
  (delete-directory ost-base t)
  (make-directory ost-dir t)
  (make-directory ost-beside t)
  (pcase-dolist (`(,name . ,text) files) (ost-write name text))
  (remove-hook 'post-command-hook 'org-add-log-note)
  (setq ost-typed nil
        ost-ids 0
        kill-ring nil
        org-refile-history nil
        org-capture-templates nil
        org-agenda-files (list ost-dir)
        org-log-note-marker (make-marker))
  (unless ost-plain
    (setq orgstore-directory ost-dir
          orgstore-program (ost-program-file)
          orgstore-timeout 20
          orgstore--history nil
          orgstore--bonds nil)
    ;; It is checked at its first run.
    (orgstore--find-program)
    (delete-file (expand-file-name "log" ost-base))))

(defun ost-run (files body)
  "Run BODY over FILES, and return the trees of both folders."
  (ost-start files)
  (let ((org-inhibit-startup t)
        (make-backup-files nil)
        (auto-save-default nil)
        (create-lockfiles nil)
        (org-id-locations-file (expand-file-name "ids" ost-base))
        (org-attach-id-dir "data/")
        (message-log-max nil)
        (inhibit-message t)
        (system-time-locale "C"))
    (unwind-protect
        (progn
          (unless ost-plain (orgstore-global-mode 1))
          (funcall body)
          (org-save-all-org-buffers)
          (list (ost-tree ost-dir) (ost-tree ost-beside)))
      (unless ost-plain (orgstore-global-mode -1))
      (ost-close))))

(defun ost-run-plain (&rest _)
  "Run all scenarios by plain Org, and print what files they leave."
  (let (all print-length print-level)
    (pcase-dolist (`(,name ,files ,body) (reverse ost-scenarios))
      (push (cons name (condition-case err (ost-run files body)
                         ((error quit) (list 'error err))))
            all))
    (let ((coding-system-for-write 'no-conversion))
      (with-temp-file ost-plain
        (set-buffer-multibyte nil)
        (insert (prin1-to-string all))))))

(defvar ost-wanted 'unread "What plain Org leaves of each scenario.")

(defun ost-wanted (name)
  "Return what plain Org leaves of the scenario NAME."
  (when (eq ost-wanted 'unread)
    (let* ((file (make-temp-file "orgstore-plain-"))
           (process-environment (append (list (concat "ORGSTORE_PLAIN=" file)
                                              (concat "ORGSTORE_TEST_DIR=" ost-base))
                                        process-environment)))
      (with-temp-buffer
        (unless (equal 0 (call-process
                          (or (getenv "ORGSTORE_EMACS")
                              (expand-file-name invocation-name
                                                invocation-directory))
                          nil t nil "-Q" "--batch"
                          "-L" (file-name-directory ost-file) "-l" ost-file
                          "-f" "ost-run-plain"))
          (princ (buffer-string))))
      (setq ost-wanted (with-temp-buffer
                         (set-buffer-multibyte nil)
                         (insert-file-contents-literally file)
                         (read (current-buffer))))
      (delete-file file)))
  (cdr (assq name ost-wanted)))

(defun ost-compare (name)
  "Check that the scenario NAME leaves what plain Org leaves."
  ;; The scenario may say that it is skipped, which plain Org can't do.
  (let ((got (apply #'ost-run (cdr (assq name ost-scenarios))))
        (wanted (ost-wanted name)))
    (should (consp (car wanted)))
    (let ((differ (ost-differ wanted got)))
      (should-not differ))))

(defun ost-define (name files function)
  "Define the scenario NAME over FILES, which FUNCTION does."
  (push (list name files function) ost-scenarios)
  (ert-set-test (intern (format "plain/%s" name))
                (make-ert-test :name (intern (format "plain/%s" name))
                               :body (lambda () (ost-compare name)))))

(defmacro ost-scenario (name files &rest body)
  "Define the scenario NAME over FILES; BODY runs by plain Org and the store."
  (declare (indent 2) (debug t))
  `(ost-define ',name ,files (lambda () ,@body)))

(defmacro ost-alone (name files &rest body)
  "Define the test NAME over FILES, which is run by the store alone."
  (declare (indent 2) (debug t))
  `(unless ost-plain
     (ert-deftest ,(intern (format "store/%s" name)) ()
       (let ((process-environment (copy-sequence process-environment)))
         (ost-run ,files (lambda () ,@body))))))

;;;; The runner

(defun ost-tell (event &rest args)
  "Tell of ARGS, if EVENT is the end of a test that failed or was skipped."
  (when (eq event 'test-ended)
    (pcase-let* ((`(,_ ,test ,result) args)
                 (name (ert-test-name test)))
      (cond
       ((ert-test-skipped-p result) (princ (format "skipped %s\n" name)))
       ((not (ert-test-passed-p result))
        ;; A question may stand in the line.
        (princ (format "\nFAILED %s\n" name))
        (when (ert-test-result-with-condition-p result)
          (let ((print-escape-newlines t) (print-length 40) (print-level 12))
            (princ (format "    %S\n" (ert-test-result-with-condition-condition
                                       result))))))))))

(defvar ost-end-hook nil "What is done when all tests have run.")

(defun ost-run-tests ()
  "Run all tests, tell of those that fail or are skipped, and end Emacs.
Where ORGSTORE_ONLY is set, run those alone that have it in their name."
  (let* ((stats (ert-run-tests (or (getenv "ORGSTORE_ONLY") t) #'ost-tell))
         (failed (ert-stats-completed-unexpected stats)))
    (run-hooks 'ost-end-hook)
    (princ (format "tests: %d passed, %d failed, %d skipped\n"
                   (ert-stats-completed-expected stats) failed
                   (ert-stats-skipped stats)))
    (kill-emacs (if (= failed 0) 0 1))))

(provide 'orgstore-test-support)
;;; orgstore-test-support.el ends here
