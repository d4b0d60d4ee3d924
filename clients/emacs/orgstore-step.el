;;; orgstore-step.el --- Commands as steps  -*- lexical-binding: t; -*-
;; SPDX-License-Identifier: MIT OR Apache-2.0

;;; Commentary:

;; A step is a function call within which served buffers aren't saved, and at whose
;; end all that it changed are saved together.  Where it ends in an error or a quit
;; nothing is written, and the buffers are left as Org leaves them; they are bound
;; then, so that none of them is saved without the others.
;;
;; A command that isn't called as a step, and changed several served buffers, is
;; made one when it ends.  So is one in which Lisp calls commands that are steps, as
;; in a loop of the user's own: these are part of its step, which waits meanwhile.

;;; Code:

(eval-when-compile (require 'cl-lib))
(require 'orgstore-save)

(defvar org-capture-mode)
(defvar orgstore-commands)
(defvar org-log-note-how)
(declare-function org-capture-get "org-capture" (prop &optional local))
(declare-function org-agenda-redo "org-agenda" (&optional all))

;;;; Steps

(defvar orgstore--pending nil
  "A step that is written with the note which Org logs after the command.")

(cl-defstruct (orgstore--step (:constructor orgstore--step-make)
                              (:copier nil))
  "A step.
The MARKS are those of all buffers at its start, or t where what changed doesn't
matter; TEXTS are of those that were modified then, DEPTH is its recursion depth.
SAVES are buffers whose saving was put off, KILLS those to be killed at its end,
MADE files that were made empty, BOND what it bound while it waited."
  marks texts depth saves kills made bond)

(defun orgstore--marks ()
  "Return a mark for each buffer that visits a file."
  (let (marks)
    (dolist (it (buffer-list) marks)
      (when (buffer-file-name it)
        (push (with-current-buffer it (orgstore--mark)) marks)))))

(defun orgstore--growth (buffer mark)
  "Return how much BUFFER has grown since MARK, its own or nil.
Where it didn't change, or is saved, return nil."
  (pcase-let ((`(,_ ,tick . ,size) mark))
    (and (buffer-live-p buffer)
         (buffer-file-name buffer)
         (buffer-modified-p buffer)
         (not (equal tick (buffer-chars-modified-tick buffer)))
         (- (buffer-size buffer) (or size 0)))))

(defun orgstore--changed (before served)
  "Return the changed buffers as pairs with their growth since BEFORE.
They are those of served files with SERVED, else those of others."
  (let (changed)
    (dolist (it (and (listp before) (buffer-list)) (nreverse changed))
      (when-let* ((growth (orgstore--growth it (assq it before)))
                  ((if (orgstore--place it) served (not served))))
        (push (cons it growth) changed)))))

(defun orgstore--text ()
  "Return the whole text of this buffer."
  (save-restriction
    (widen)
    (buffer-substring-no-properties (point-min) (point-max))))

(defun orgstore--begin ()
  "Return a step that begins.
What a capture that is open put into a buffer is part of the step."
  (let ((marks (orgstore--marks)) texts)
    (pcase-dolist (`(,it . ,_) marks)
      (when (and (buffer-modified-p it) (orgstore--place it)
                 (not (orgstore--capture-open-p (list it))))
        (push (cons it (with-current-buffer it (orgstore--text))) texts)))
    (orgstore--step-make :marks marks :texts texts :depth (recursion-depth))))

(defun orgstore--renew (step)
  "Have STEP begin anew, after what it changed was written or bound."
  (let ((new (orgstore--begin)))
    (setf (orgstore--step-marks step) (orgstore--step-marks new)
          (orgstore--step-texts step) (orgstore--step-texts new)
          (orgstore--step-saves step) nil
          (orgstore--step-made step) nil)))

(defun orgstore--step-buffers (step)
  "Return the served buffers that STEP changed or would have saved.
The one that gained most is first.  So the functions of `after-save-hook' run
first where text was lost, and see an entry leave before it arrives."
  (seq-uniq (append (mapcar #'car (orgstore--sorted
                                   (orgstore--changed
                                    (orgstore--step-marks step) t)
                                   #'cdr))
                    (reverse (orgstore--step-saves step)))
            #'eq))

(defun orgstore--abandon (step)
  "Have nothing of STEP be written now; what it changed is saved together."
  (dolist (file (orgstore--step-made step))
    (when (equal 0 (file-attribute-size (file-attributes file)))
      (delete-file file)
      (when-let* ((buffer (get-file-buffer file)))
        (with-current-buffer buffer (clear-visited-file-modtime)))))
  (setf (orgstore--step-made step) nil)
  (orgstore--bond (orgstore--step-buffers step)))

(defun orgstore--save-gainers (step)
  "Save the files beside the store that gained text which STEP takes from it.
They are written before, so that a crash doubles text and never loses it."
  (when (seq-some (lambda (it) (< (cdr it) 0))
                  (orgstore--changed (orgstore--step-marks step) t))
    (pcase-dolist (`(,buffer . ,growth)
                   (orgstore--changed (orgstore--step-marks step) nil))
      (with-current-buffer buffer
        (when (and (> growth 0) (derived-mode-p 'org-mode))
          (save-buffer))))))

;;;; What is written later

(defun orgstore--note-comes-p ()
  "Whether Org is to log a note that needs no text, after this command.
It is written with the command then, by the step of `org-store-log-note'."
  (and (assq (recursion-depth) orgstore--commands)
       (memq 'org-add-log-note (default-value 'post-command-hook))
       (memq org-log-note-how '(time state))))

(defun orgstore--capture-open-p (buffers)
  "Whether a capture into one of BUFFERS is open."
  (and (boundp 'org-capture-mode)
       (seq-some (lambda (it)
                   (and (buffer-base-buffer it)
                        (buffer-local-value 'org-capture-mode it)
                        (memq (buffer-base-buffer it) buffers)))
                 (buffer-list))))

;;;; Calling a step

(defun orgstore--save-quietly (buffers &optional texts)
  "Do `orgstore--save-together' with BUFFERS and TEXTS.
What the command said stays in the echo area."
  (let ((save-silently (or save-silently (current-message))))
    (orgstore--save-together buffers texts)))

(defun orgstore--end (step)
  "Write what STEP changed."
  (save-match-data
    (let* ((orgstore--step nil)
           (buffers (orgstore--step-buffers step))
           whole)
      (unwind-protect
          (cond
           ((orgstore--note-comes-p) (setq orgstore--pending step))
           ;; That is written with the capture.
           ((and (bound-and-true-p org-capture-mode)
                 (null (orgstore--step-saves step))
                 (equal buffers (list (orgstore--base)))))
           (t (orgstore--save-gainers step)
              (orgstore--save-quietly buffers (orgstore--step-texts step))
              (setq whole t)))
        (unless whole (orgstore--abandon step))))))

(defun orgstore--end-capture (step)
  "Write what STEP, a call of `org-capture', changed.
Where a capture buffer is left open, that is written with the capture."
  (let ((buffers (orgstore--step-buffers step)))
    (if (orgstore--capture-open-p buffers)
        (orgstore--abandon step)
      (orgstore--end step))))

(defun orgstore--end-step (step end)
  "Have the function END write what STEP changed, then kill its buffers."
  (funcall end step)
  (dolist (it (orgstore--step-kills step))
    (when (and (buffer-live-p it) (not (buffer-modified-p it)))
      (kill-buffer it)))
  (orgstore--mark-command))

(defun orgstore--call (end function args)
  "Call FUNCTION with ARGS as a step, at whose end the function END is called.
Within another step it is part of that one."
  (if orgstore--step
      (apply function args)
    (orgstore--flush)
    (let ((step (or orgstore--pending (orgstore--begin))) whole result)
      (setq orgstore--pending nil)
      (unwind-protect
          (progn
            (let ((orgstore--step step))
              (setq result (apply function args)
                    whole t))
            (orgstore--end-step step end)
            result)
        (unless whole
          (orgstore--abandon step)
          (orgstore--mark-command))))))

;;;###autoload
(defun orgstore-as-step (function &rest args)
  "Call FUNCTION with ARGS as one step over all served files.
The buffers of these files aren't saved within it, and are saved together at its
end, before this returns its value.  Where it ends in an error or a quit nothing
is written: the buffers are as FUNCTION left them, and none of them is saved
without the others.

Steps may be nested: then the outermost is the step."
  (orgstore--call #'orgstore--end function args))

(defun orgstore--as-command (function &rest args)
  "Call FUNCTION, which is one of `orgstore-commands', with ARGS as a step.
Where another command calls it, it is part of a step that ends with this one."
  (let ((caller (and (null orgstore--step) (orgstore--caller))))
    (if (null caller)
        (orgstore--call #'orgstore--end function args)
      (unless (cadr caller) (setf (cadr caller) (orgstore--begin)))
      (unwind-protect
          (let ((orgstore--step (cadr caller))) (apply function args))
        (orgstore--wait caller)))))

(defun orgstore--as-capture (function &rest args)
  "Call FUNCTION, which is `org-capture', with ARGS as a step."
  (orgstore--call #'orgstore--end-capture function args))

(defun orgstore--captured ()
  "Write a finished capture, so that the user's functions find it on the disk.
This is the first function of `org-capture-after-finalize-hook'."
  (when orgstore--step
    (if (org-capture-get :no-save)
        (orgstore--abandon orgstore--step)
      (orgstore--end orgstore--step))
    (orgstore--renew orgstore--step)))

;;;; Steps that wait for the end of a command

(defun orgstore--caller ()
  "Return the current command, if commands called in it are parts of its step.
One that is a step itself has no others in it.  What is done in an open capture
is written with that."
  (let ((command (assq (recursion-depth) orgstore--commands)))
    (and command
         (not (eq (cadr command) t))
         (not (memq this-command orgstore-commands))
         (not (bound-and-true-p org-capture-mode))
         (null orgstore--pending)
         command)))

(defun orgstore--wait (command)
  "Have what COMMAND changed until now wait for its end.
If it is saved before, it is saved together.  A record has room for 256 files."
  (let ((step (cadr command))
        (these (mapcar #'car (cddr command))))
    (dolist (it (orgstore--step-saves step))
      (unless (memq it these) (push it these)))
    ;; It grows with the command.
    (setq orgstore--bonds (delq (orgstore--step-bond step) orgstore--bonds))
    (setf (orgstore--step-bond step) these)
    (when (cdr these) (push these orgstore--bonds))
    (when (nthcdr 255 these) (orgstore--flush))))

(defun orgstore--waiting ()
  "Return the step that waits for the end of the current command, or nil."
  (let ((step (cadr (assq (recursion-depth) orgstore--commands))))
    (and (orgstore--step-p step) step)))

(defun orgstore--flush ()
  "Write the step that waits for the end of the current command.
So what Lisp saves is on the disk at once."
  (when-let* ((step (orgstore--waiting)))
    (setf (cadr (assq (recursion-depth) orgstore--commands)) nil)
    ;; Without the command it doesn't wait for a note.
    (let (orgstore--commands) (orgstore--end-step step #'orgstore--end))
    (orgstore--mark-command)))

;;;; Saves within a step

(defun orgstore--make-empty ()
  "Make the file of this buffer, whose save is put off, where it isn't there.
`org-archive-subtree' puts a header into an archive whose file isn't there yet.
To the program an empty file is none."
  (unless (or (file-exists-p buffer-file-name)
              (not (file-directory-p (file-name-directory buffer-file-name))))
    (write-region "" nil buffer-file-name nil 'quiet)
    (set-visited-file-modtime)
    (push buffer-file-name (orgstore--step-made orgstore--step))))

(defun orgstore--typed-p ()
  "Whether this is called by what the user does while the step asks something."
  (let ((depth (recursion-depth)))
    (and (> depth (orgstore--step-depth orgstore--step))
         (assq depth orgstore--commands))))

(defun orgstore--save (save &rest args)
  "Do SAVE, which is `basic-save-buffer', with ARGS.
The save of a served buffer within a step is put off.  One that the user does
at a prompt of the step writes all that it changed by then."
  (let ((base (orgstore--base)))
    (cond
     ((or (eq base orgstore--saving)
          orgstore--by-emacs
          (not (orgstore--place base))
          (not (orgstore--to-save-p base)))
      (apply save args))
     ((null orgstore--step)
      (orgstore--flush)
      (orgstore--save-together (list base)))
     (t
      (unless (memq base (orgstore--step-saves orgstore--step))
        (push base (orgstore--step-saves orgstore--step)))
      (with-current-buffer base (orgstore--make-empty))
      (when (orgstore--typed-p)
        (orgstore--end orgstore--step)
        (orgstore--renew orgstore--step))))))

(defun orgstore--save-some (save &rest args)
  "Do SAVE, which is `save-some-buffers', with ARGS, as a step.
Where the user quits, what he had saved by then is saved.  Buffers whose files
changed on the disk, of which Emacs will ask, aren't part of the step."
  (if orgstore--step (apply save args)
    (orgstore--flush)
    (let ((step (orgstore--step-make :marks t :depth (recursion-depth))))
      (unwind-protect
          (let ((orgstore--step step)) (apply save args))
        (let* ((saves (reverse (orgstore--step-saves step)))
               (these (seq-filter #'verify-visited-file-modtime saves)))
          (orgstore--save-together these)
          (dolist (it (seq-remove (lambda (it) (memq it these)) saves))
            (orgstore--save-together (list it))))))))

(defun orgstore--kill-query ()
  "Whether this buffer may be killed now: its save may have been put off.
That is done even where Org takes it for unmodified, as one of an aborted
capture.  What waits for the end of a command is saved before."
  (when (and (null orgstore--step) (orgstore--waiting) (buffer-modified-p))
    (orgstore--flush))
  (not (and orgstore--step
            (memq (current-buffer) (orgstore--step-saves orgstore--step))
            (push (current-buffer) (orgstore--step-kills orgstore--step))
            (prog1 t (set-buffer-modified-p t)))))

;;;; Other commands

(defvar orgstore--kill nil "The newest kill before the command.")

(defvar orgstore--failed nil "Whether the command ended in an error.")

(defvar orgstore--cut nil
  "What was last cut from a served buffer: (BUFFER . TITLE), or nil.")

(defun orgstore--mark-command ()
  "Forget what the command changed until now."
  (when-let* ((command (assq (recursion-depth) orgstore--commands)))
    (setcdr (cdr command) nil)))

(defun orgstore--before-command ()
  "Note how things are before a command."
  (let ((depth (recursion-depth)))
    (unless orgstore--step (setq orgstore--pending nil))
    ;; The one that goes on does others, as a keyboard macro.
    (when (orgstore--waiting) (orgstore--reported #'orgstore--flush))
    ;; Commands that were quit are forgotten.
    (while (and orgstore--commands (>= (caar orgstore--commands) depth))
      (pop orgstore--commands))
    (push (list depth nil) orgstore--commands)
    (setq orgstore--failed nil
          orgstore--kill (car kill-ring))))

(defun orgstore--command-error (&rest _)
  "Note that the command ended in an error or a quit."
  (setq orgstore--failed t))

(defun orgstore--note-cut (buffer growth)
  "Note a cut from BUFFER, and bind it to one into which that is pasted.
GROWTH tells by how much the last command let BUFFER grow."
  (let ((kill (car kill-ring)))
    (cond
     ((and (< growth 0) kill (not (eq kill orgstore--kill))
           (string-match "^\\*+[ \t]+\\(.*\\)" kill))
      (setq orgstore--cut
            (cons buffer (substring-no-properties (match-string 1 kill)))))
     ((and (> growth 0) orgstore--cut
           (not (eq buffer (car orgstore--cut)))
           (buffer-live-p (car orgstore--cut))
           (buffer-modified-p (car orgstore--cut))
           (with-current-buffer buffer
             (save-excursion
               (save-restriction
                 (widen)
                 (goto-char (point-min))
                 (search-forward (cdr orgstore--cut) nil t)))))
      (orgstore--bond (list buffer (car orgstore--cut)))))))

(defun orgstore--note-undo (buffer)
  "Bind BUFFER, if its part of the last step was undone, to the step's others.
They may have been undone too."
  (when (and (symbolp this-command)
             (string-match-p "undo" (symbol-name this-command)))
    (let ((files (mapcar #'car (cdar orgstore--history))))
      (when (member (buffer-file-name buffer) files)
        (orgstore--bond
         (cons buffer
               (seq-filter (lambda (it) (and it (not (eq it buffer))
                                             (buffer-modified-p it)))
                           (mapcar #'get-file-buffer files))))))))

(defun orgstore--reported (function &rest args)
  "Call FUNCTION with ARGS, and return whether it did well.
An error is told: it would take the function that calls this off its hook."
  (condition-case err (progn (apply function args) t)
    ((error quit) (message "%s" (error-message-string err)) nil)))

(defun orgstore--together (buffers)
  "Save BUFFERS, which one command changed, or bind them where that fails."
  (if orgstore--failed (orgstore--bond buffers)
    (unless (orgstore--reported #'orgstore--save-quietly buffers)
      (orgstore--bond (seq-filter #'buffer-modified-p buffers)))))

(defun orgstore--end-waiting (step buffers)
  "Write STEP, which waited for the end of a command that changed BUFFERS."
  (setf (orgstore--step-saves step)
        (seq-union (orgstore--step-saves step) buffers #'eq))
  (if orgstore--failed (orgstore--abandon step)
    (orgstore--reported #'orgstore--end-step step #'orgstore--end)))

(defun orgstore--after-command ()
  "Make a step of a command that changed several served buffers.
So is one in which commands of `orgstore-commands' were called."
  (let* ((command (assq (recursion-depth) orgstore--commands))
         (step (orgstore--waiting))
         changed)
    (unless orgstore--step
      (dolist (mark (cddr command))
        (when-let* ((growth (orgstore--growth (car mark) mark)))
          (push (cons (car mark) growth) changed))))
    (when command (setf (cadr command) t))
    (pcase (cons step changed)
      ('(nil) nil)
      (`(nil (,buffer . ,growth))
       (orgstore--note-cut buffer growth)
       (orgstore--note-undo buffer))
      (`(nil . ,_) (orgstore--together (mapcar #'car changed)))
      (_ (orgstore--end-waiting step (mapcar #'car changed))))
    (setq orgstore--commands (delq command orgstore--commands))))

;;;; Undo, by the edits of bytes that saves and steps wrote

(defun orgstore--put-text (text)
  "Have this buffer be TEXT, by a change as small as can be."
  (save-excursion
    (save-restriction
      (widen)
      (pcase-let ((`(,front . ,back) (orgstore--trim (orgstore--text) text))
                  (inhibit-read-only t))
        (replace-region-contents
         (+ (point-min) front) (- (point-max) back)
         (lambda () (substring text front (- (length text) back)))
         1)))))

(defun orgstore--undone (file edits)
  "Return (BUFFER . TEXT): the text of FILE before EDITS, and its buffer."
  (with-current-buffer (find-file-noselect file)
    (when (or (buffer-modified-p) (not (verify-visited-file-modtime)))
      (user-error "Save or revert %s first" (buffer-name)))
    (let ((bytes (orgstore--patched (orgstore--bytes file)
                                    (orgstore--reversed edits))))
      (unless bytes
        (user-error "%s was changed there since that step" (buffer-name)))
      (cons (current-buffer)
            (decode-coding-string bytes (or buffer-file-coding-system
                                            'undecided))))))

;;;###autoload
(defun orgstore-undo-last ()
  "Take back what the last step or save wrote, in all its files, as one step.
Called again it takes back the one before.  In each buffer that is a change
which `undo' takes back."
  (interactive)
  (orgstore--flush)
  (let* ((step (or (car orgstore--history)
                   (user-error "There is no step to take back")))
         (texts (mapcar (lambda (it) (orgstore--undone (car it) (cdr it)))
                        (cdr step)))
         (orgstore--keep-history nil))
    (pcase-dolist (`(,buffer . ,text) texts)
      (with-current-buffer buffer
        (undo-boundary)
        (orgstore--put-text text)
        (undo-boundary)))
    (orgstore--bond (mapcar #'car texts))
    (orgstore--save-together (mapcar #'car texts))
    (orgstore--mark-command)
    (setq orgstore--history (cdr orgstore--history))
    (when (derived-mode-p 'org-agenda-mode) (org-agenda-redo))
    (message "Taken back, of %s: the change to %s"
             (format-time-string "%H:%M:%S" (car step))
             (mapconcat (lambda (it) (buffer-name (car it))) texts ", "))))

(provide 'orgstore-step)
;;; orgstore-step.el ends here
