;;; orgstore-commands-tests.el --- Every command beside plain Org  -*- lexical-binding: t; -*-

;; SPDX-License-Identifier: MIT OR Apache-2.0

;; This file is not part of GNU Emacs.

;;; Commentary:

;; The commands that Org's manual names in its chapters on TODO items, tags,
;; properties, dates, clocks, refile and archive, capture, and the agenda's
;; commands.  Each row is typed as keys, by plain Org and by the store, over the
;; same files.  These have to be the same then, byte for byte.
;;
;; Where the command is one of `orgstore-commands', all is saved at its end, by one
;; run of the program, or by as many as the row says.

;;; Code:

(require 'orgstore-test-support)
(require 'org-colview)
(require 'org-habit)
(require 'org-timer)
(defvar orgstore-commands)
(setq ost-file (or load-file-name buffer-file-name))

(defconst ost-row-files
  '(("a.org" . "#+TODO: TODO(t) NEXT(n!) WAIT(w@/!) | DONE(d!) CANCELED(c@)
#+TAGS: { home(h) office(o) } urgent(u)
#+COLUMNS: %25ITEM %TODO %Effort{:} %Kind
* TODO [#B] Pay the rent                                               :home:
SCHEDULED: <2026-07-01 Wed +1m>
:PROPERTIES:
:Effort:   0:30
:Kind:     small
:Kind_ALL: small large huge
:END:
The text of it, with a date <2026-07-04 Sat 10:00> in it.
* Project [1/3]                                                       :work:
** DONE First
CLOSED: [2026-05-01 Fri 10:00]
:LOGBOOK:
CLOCK: [2026-05-01 Fri 09:00]--[2026-05-01 Fri 10:00] =>  1:00
:END:
** TODO Second
DEADLINE: <2026-07-03 Fri>
** NEXT Third
- [ ] one
- [X] two [0/2]
  - [ ] inner
  - [ ] other
* Plain, übung
Some text.
* TODO Habit
SCHEDULED: <2026-06-28 Sun .+1d>
:PROPERTIES:
:STYLE:    habit
:REPEAT_TO_STATE: NEXT
:END:
* Twin
first
* Twin
second
* Ordered
:PROPERTIES:
:ORDERED:  t
:END:
** TODO Before
** TODO After
* Last
")
    ("b.org" . "* Box\n** Inside\n* TODO Call Ann :urgent:\nDEADLINE: <2026-07-02 Thu>\n* Table\n| a | b |\n|---+---|\n| 1 | 2 |\n* List\n- x\n")
    ("c.org" . "* TODO Windows\r\nSCHEDULED: <2026-07-01 Wed>\r\ntext\r\n* Other\r\n")
    ("d.org" . "# -*- coding: latin-1 -*-\n* TODO B\374ro\n** DONE Akte\n* Ende\n"))
  "The files of each row.")

(defconst ost-row-settings
  `((org-log-done . time)
    (org-read-date-popup-calendar . nil)
    (org-refile-targets . ((org-agenda-files :maxlevel . 2)))
    (org-outline-path-complete-in-steps . nil)
    (org-clock-persist . nil)
    (org-show-notification-handler . ignore)
    (org-global-properties . (("Effort_ALL" . "0:10 0:30 1:00 2:00")))
    (org-confirm-elisp-link-function . nil)
    (make-backup-files . nil))
  "Settings of each row, where it has no others.")

(defconst ost-rows nil "The rows: lists (NAME COMMAND).")

(defun ost-row-templates ()
  "Set templates for captures."
  (setq org-capture-templates
        `(("e" "entry" entry (file+headline ,(ost-path "b.org") "Box") "* TODO %?\n%U\n%i\n%a")
          ("f" "file" entry (file ,(ost-path "b.org")) "* %?")
          ("p" "prepended" entry (file+headline ,(ost-path "a.org") "Project") "* %?" :prepend t)
          ("o" "path" entry (file+olp ,(ost-path "a.org") "Project" "Third") "* %? %t")
          ("r" "regexp" entry (file+regexp ,(ost-path "a.org") "^\\* Plain") "* %?")
          ("d" "dates" entry (file+olp+datetree ,(ost-path "b.org")) "* %U %?")
          ("w" "weeks" entry (file+olp+datetree ,(ost-path "new.org")) "* %?" :tree-type week)
          ("m" "months" entry (file+olp+datetree ,(ost-path "b.org") "Box") "* %?" :tree-type month)
          ("q" "asked" entry (file+olp+datetree ,(ost-path "b.org")) "* %?" :time-prompt t)
          ("i" "item" item (file+headline ,(ost-path "b.org") "List") "%?")
          ("I" "first item" item (file+headline ,(ost-path "b.org") "List") "%?" :prepend t)
          ("c" "box" checkitem (file+olp ,(ost-path "a.org") "Project" "Third") "[ ] %?")
          ("t" "line" table-line (file+headline ,(ost-path "b.org") "Table") "| %? | 4 |")
          ("T" "line at" table-line (file+headline ,(ost-path "b.org") "Table") "| %? | 5 |" :table-line-pos "I+1")
          ("l" "plain" plain (file+headline ,(ost-path "b.org") "Box") "plain %?")
          ("n" "now" entry (file ,(ost-path "b.org")) "* Now %(concat \"a\" \"b\")" :immediate-finish t)
          ("j" "jump" entry (file ,(ost-path "b.org")) "* Jump" :immediate-finish t :jump-to-captured t)
          ("E" "lines" entry (file ,(ost-path "b.org")) "* %?" :empty-lines 2)
          ("A" "before" entry (file+headline ,(ost-path "b.org") "Box") "* %?" :empty-lines-before 1)
          ("Z" "after" entry (file+headline ,(ost-path "b.org") "Box") "* %?" :empty-lines-after 1)
          ("k" "clock" entry (file+headline ,(ost-path "b.org") "Box") "* %?" :clock-in t)
          ("K" "keep" entry (file+headline ,(ost-path "b.org") "Box") "* %?" :clock-in t :clock-keep t)
          ("R" "resume" entry (file+headline ,(ost-path "b.org") "Box") "* %?" :clock-in t :clock-resume t)
          ("C" "to the clock" entry (clock) "* %?")
          ("u" "wide" entry (file+headline ,(ost-path "b.org") "Box") "* %?" :unnarrowed t)
          ("x" "closed" entry (file+headline ,(ost-path "b.org") "Box") "* %?" :kill-buffer t)
          ("s" "unsaved" entry (file+headline ,(ost-path "b.org") "Box") "* %?" :no-save t)
          ("g" "tags" entry (file+headline ,(ost-path "b.org") "Box") "* %? %^g")
          ("P" "prompts" entry (file+headline ,(ost-path "b.org") "Box") "* %^{Title} %^{Kind}p\n%^t %^U\n%?")
          ("N" "no heading" entry (file+headline ,(ost-path "b.org") "Nowhere") "* %?")
          ("W" "CRLF" entry (file+headline ,(ost-path "c.org") "Other") "* %?")
          ("L" "Latin-1" entry (file+headline ,(ost-path "d.org") "Ende") "* %? é")
          ("B" "a function" plain
           (file+function ,(ost-path "b.org") ,(lambda () (goto-char (point-min)) (end-of-line))) "here %?"))))

(defun ost-row-go (place)
  "Show PLACE: (FILE TITLE . TEXT), or (agenda TEXT) or (day TEXT)."
  (pcase place
    (`(agenda ,text) (ost-row-agenda #'org-todo-list text))
    (`(day ,text) (ost-row-agenda (lambda () (org-agenda-list nil "2026-06-29" 7)) text))
    (`(,file ,title . ,text)
     (ost-open file title)
     (dolist (it text) (search-forward it)))))

(defun ost-row-agenda (command text)
  "Show the agenda of COMMAND, and go to TEXT in it."
  (let ((org-agenda-window-setup 'current-window)) (funcall command))
  (goto-char (point-min))
  (search-forward text)
  (beginning-of-line))

(defun ost-row-attachment ()
  "Make a file that can be attached, and have it in a buffer."
  (ost-write "here.txt" "HERE\n")
  (find-file-noselect (ost-path "here.txt")))

(defun ost-row-run (command place keys plist)
  "At PLACE type KEYS, which do COMMAND.
Of PLIST, :before is a function that is called before, :first are keys typed
then at :at, :let are settings, :runs is how often the program is run at most,
and :unsaved says that more is typed after it."
  (let ((all (append (plist-get plist :let) ost-row-settings)) runs)
    (cl-progv (mapcar #'car all) (mapcar (lambda (it) (cdr (assq (car it) all))) all)
      (ost-row-templates)
      (when-let* ((before (plist-get plist :before))) (funcall before))
      (when-let* ((first (plist-get plist :first)))
        (ost-row-go (or (plist-get plist :at) place))
        (ost-keys first)
        (org-save-all-org-buffers))
      (ost-row-go place)
      (setq runs (ost-runs))
      (ost-keys keys)
      (when (and (not ost-plain) (memq command orgstore-commands))
        (unless (plist-get plist :unsaved)
          (should-not (ost-names (ost-modified))))
        (should (<= (- (ost-runs) runs) (or (plist-get plist :runs) 1))))
      (org-save-all-org-buffers))))

(defmacro ost-row (name place keys &rest plist)
  "Define the row NAME: a command, with a word after a slash where it has more.
KEYS are typed at PLACE; see `ost-row-run' for these and for PLIST."
  (declare (indent 1))
  (let ((command (intern (car (split-string (symbol-name name) "/")))))
    `(progn
       (push '(,name ,command) ost-rows)
       (ost-define ',(intern (format "row/%s" name)) ost-row-files
                   (lambda () (ost-row-run ',command ',place ,keys ',plist))))))

;;;; Structure

(ost-row org-insert-heading-respect-content ("a.org" "Pay") "C-RET Typed")
(ost-row org-insert-subheading ("a.org" "Plain") "C-e M-x org-insert-subheading RET Typed")
(ost-row org-promote-subtree ("a.org" "Third") "M-x org-promote-subtree RET")
(ost-row org-demote-subtree ("a.org" "Last") "M-x org-demote-subtree RET")
(ost-row org-metaleft ("a.org" "Third") "M-<left>")
(ost-row org-copy-subtree ("a.org" "Project") "C-c C-x M-w M-> C-c C-x C-y")
(ost-row org-clone-subtree-with-time-shift/no-shift ("a.org" "Plain") "C-c C-x c 1 RET RET")
(ost-row org-toggle-comment ("a.org" "Last") "C-c ;")
(ost-row org-sort/list ("a.org" "Third" "one") "C-c ^ x")
(ost-row org-cycle-list-bullet ("a.org" "Third" "one") "M-x org-cycle-list-bullet RET")
(ost-row org-table-align ("b.org" "Table" "| 1") "C-c C-c")
(ost-row org-table-sort-lines ("b.org" "Table" "| 1") "C-c ^ N")
(ost-row org-table-insert-row ("b.org" "Table" "| 1") "M-S-<down>")
(ost-row org-insert-structure-template ("a.org" "Plain" "Some") "C-c C-, q")
(ost-row org-insert-link ("a.org" "Plain" "Some") "C-c C-l file:b.org RET there RET")
(ost-row org-footnote-action ("a.org" "Plain" "Some") "C-c C-x f")

;;;; TODO items

(ost-row org-todo ("a.org" "Second") "C-c C-t t")
(ost-row org-todo/done ("a.org" "Second") "C-c C-t d")
(ost-row org-todo/none ("a.org" "Second") "C-c C-t SPC")
(ost-row org-todo/repeats ("a.org" "Pay") "C-c C-t d")
(ost-row org-todo/habit ("a.org" "Habit") "C-c C-t d")
(ost-row org-todo/note ("a.org" "Third") "C-c C-t w because C-c C-c" :runs 2)
(ost-row org-todo/note-given-up ("a.org" "Third") "C-c C-t w because C-c C-k" :runs 2)
(ost-row org-todo/closing-note ("a.org" "Second") "C-u C-c C-t d well C-c C-c" :runs 2)
(ost-row org-todo/next-set ("b.org" "Ann") "C-u C-u C-c C-t"
  :let ((org-todo-keywords . ((sequence "TODO" "|" "DONE") (sequence "BUG" "|" "FIXED")))))
(ost-row org-todo/unblocked ("a.org" "After") "C-u C-u C-u C-c C-t d"
  :let ((org-enforce-todo-dependencies . t)))
(ost-row org-todo/number ("a.org" "Second") "M-3 C-c C-t")
(ost-row org-todo/zero ("a.org" "Second") "M-0 C-c C-t n")
(ost-row org-todo/mouseless ("b.org" "Ann") "M-x org-todo RET")
(ost-row org-todo/drawer ("a.org" "Second") "C-c C-t d" :let ((org-log-into-drawer . t)))
(ost-row org-todo/statistics ("a.org" "Third") "C-c C-t d"
  :let ((org-hierarchical-todo-statistics . nil)))
(ost-row org-todo/crlf ("c.org" "Windows") "C-c C-t")
(ost-row org-todo/latin ("d.org" "Büro") "C-c C-t")
(ost-row org-todo-yesterday ("a.org" "Pay") "M-x org-todo-yesterday RET d")
(ost-row org-shiftright ("a.org" "Second") "S-<right>")
(ost-row org-shiftleft ("a.org" "Second") "S-<left>")
(ost-row org-shiftcontrolright ("b.org" "Ann") "C-S-<right>"
  :let ((org-todo-keywords . ((sequence "TODO" "|" "DONE") (sequence "BUG" "|" "FIXED")))))
(ost-row org-shiftcontrolleft ("b.org" "Ann") "C-S-<left>"
  :let ((org-todo-keywords . ((sequence "TODO" "|" "DONE") (sequence "BUG" "|" "FIXED")))))
(ost-row org-insert-todo-heading ("a.org" "Second") "C-e M-S-RET Typed")
(ost-row org-insert-todo-heading-respect-content ("a.org" "Second") "C-S-RET Typed")
(ost-row org-insert-heading ("a.org" "Plain") "C-e M-RET Typed")
(ost-row org-toggle-ordered-property ("a.org" "Project") "C-c C-x o")
(ost-row org-priority ("a.org" "Pay") "C-c , A")
(ost-row org-priority/none ("a.org" "Pay") "C-c , SPC")
(ost-row org-priority-up ("a.org" "Pay") "M-x org-priority-up RET")
(ost-row org-priority-down ("a.org" "Last") "M-x org-priority-down RET")
(ost-row org-shiftup ("a.org" "Pay") "S-<up>")
(ost-row org-shiftdown ("a.org" "Pay") "S-<down>")
(ost-row org-update-statistics-cookies ("a.org" "Project") "C-c #")
(ost-row org-update-statistics-cookies/all ("a.org" "Project") "C-u C-c #")
(ost-row org-toggle-checkbox ("a.org" "Third" "inner") "C-c C-x C-b")
(ost-row org-toggle-checkbox/cookies ("a.org" "Third" "inner") "C-u C-c C-x C-b")
(ost-row org-ctrl-c-ctrl-c/checkbox ("a.org" "Third" "inner") "C-c C-c")
(ost-row org-toggle-radio-button ("a.org" "Third" "inner") "C-c C-x C-r")
(ost-row org-reset-checkbox-state-subtree ("a.org" "Third")
  "M-x org-reset-checkbox-state-subtree RET y RET")
(ost-row org-insert-item ("a.org" "Third" "one") "M-S-RET new")
(ost-row org-toggle-item ("a.org" "Plain" "Some") "C-c -")
(ost-row org-toggle-heading ("a.org" "Plain" "Some") "C-c *")

;;;; Tags

(ost-row org-set-tags-command ("a.org" "Second") "C-c C-q h RET")
(ost-row org-set-tags-command/typed ("b.org" "Box") "C-c C-q new:other RET"
  :let ((org-use-fast-tag-selection . nil)))
(ost-row org-set-tags-command/aligned ("a.org" "Pay") "C-u C-c C-q")
(ost-row org-ctrl-c-ctrl-c/tags ("a.org" "Second") "C-c C-c o RET")
(ost-row org-change-tag-in-region ("b.org" "Ann")
  "C-SPC M-> M-x org-change-tag-in-region RET new RET n" :let ((transient-mark-mode . t)))
(ost-row org-toggle-archive-tag ("a.org" "Second") "C-c C-x a")

;;;; Properties

(ost-row org-set-property ("a.org" "Second") "C-c C-x p Owner RET Ann RET")
(ost-row org-set-property/known ("a.org" "Pay") "C-c C-x p Kind RET large RET")
(ost-row org-set-property-and-value ("a.org" "Second")
  "M-x org-set-property-and-value RET Kind: SPC huge RET")
(ost-row org-delete-property ("a.org" "Pay") "M-x org-delete-property RET Kind RET")
(ost-row org-delete-property-globally ("a.org" "Pay")
  "M-x org-delete-property-globally RET Kind RET")
(ost-row org-property-next-allowed-value ("a.org" "Pay" ":Kind:") "S-<right>")
(ost-row org-property-previous-allowed-value ("a.org" "Pay" ":Kind:") "S-<left>")
(ost-row org-property-action/set ("a.org" "Pay" ":Kind:") "C-c C-c s Kind RET large RET")
(ost-row org-property-action/delete ("a.org" "Pay" ":Kind:") "C-c C-c d Kind RET")
(ost-row org-property-action/globally ("a.org" "Pay" ":Kind:") "C-c C-c D Kind RET")
(ost-row org-set-effort ("a.org" "Second") "C-c C-x e 1:00 RET")
(ost-row org-inc-effort ("a.org" "Pay") "C-c C-x E")
(ost-row org-insert-drawer ("a.org" "Plain" "Some") "C-c C-x d Notes RET")
(ost-row org-id-get-create ("a.org" "Second") "M-x org-id-get-create RET")
(ost-row org-id-get-create/anew ("a.org" "Second") "C-u M-x org-id-get-create RET"
  :first "M-x org-id-get-create RET")
(ost-row org-attach ("a.org" "Second") "C-c C-a a here.txt RET" :before ost-row-attachment)
(ost-row org-attach/moved ("a.org" "Second") "C-c C-a m here.txt RET" :before ost-row-attachment)
(ost-row org-attach/agenda (agenda "Second") "C-c C-a a ../notes/here.txt RET" :before ost-row-attachment)
(ost-row org-attach-attach ("b.org" "Ann") "M-x org-attach-attach RET here.txt RET" :before ost-row-attachment)
(ost-row org-attach-buffer ("b.org" "Ann") "C-c C-a b here.txt RET" :before ost-row-attachment)
(ost-row org-attach-new ("b.org" "Ann") "C-c C-a n new.txt RET")
(ost-row org-attach-sync ("b.org" "Ann") "C-c C-a z" :first "C-c C-a b here.txt RET" :before ost-row-attachment)
(ost-row org-attach-delete-all ("b.org" "Ann") "C-u M-x org-attach-delete-all RET"
  :first "C-c C-a b here.txt RET" :before ost-row-attachment)
(ost-row org-id-copy ("a.org" "Twin") "M-x org-id-copy RET")
(ost-row org-columns-edit-value ("a.org" "Project") "C-c C-x C-c C-n e Renamed SPC RET q"
  :let ((org-columns-default-format . "%ITEM %Kind")))
(ost-row org-columns-next-allowed-value ("a.org" "Pay") "C-c C-x C-c <right> <right> <right> n q")
(ost-row org-columns-previous-allowed-value ("a.org" "Pay") "C-c C-x C-c <right> <right> <right> p q")
(ost-row org-columns-todo ("b.org" "Box") "C-c C-x C-c t q")
(ost-row org-columns-insert-dblock ("a.org" "Last") "C-e RET M-x org-columns-insert-dblock RET local RET")

;;;; Dates

(ost-row org-time-stamp ("a.org" "Last") "C-e C-c . 2026-08-09 RET")
(ost-row org-time-stamp/change ("a.org" "Pay" "2026-07-0") "C-c . 2026-08-09 RET")
(ost-row org-time-stamp-inactive ("a.org" "Last") "C-e C-c ! 2026-08-09 RET")
(ost-row org-schedule ("a.org" "Last") "C-c C-s 2026-08-09 RET")
(ost-row org-schedule/again ("a.org" "Pay") "C-c C-s +3d RET"
  :let ((org-log-reschedule . time)))
(ost-row org-schedule/remove ("a.org" "Pay") "C-u C-c C-s")
(ost-row org-schedule/delay ("a.org" "Pay") "C-u C-u C-c C-s 2026-06-29 RET")
(ost-row org-schedule/note ("a.org" "Habit") "C-c C-s 2026-08-09 RET late C-c C-c"
  :let ((org-log-reschedule . note)) :runs 2)
(ost-row org-deadline ("a.org" "Last") "C-c C-d 2026-08-09 RET")
(ost-row org-deadline/again ("a.org" "Second") "C-c C-d 2026-08-09 RET"
  :let ((org-log-redeadline . time)))
(ost-row org-deadline/remove ("a.org" "Second") "C-u C-c C-d"
  :let ((org-log-redeadline . time)))
(ost-row org-deadline/warning ("a.org" "Second") "C-u C-u C-c C-d 2026-07-01 RET")
(ost-row org-timestamp-up-day ("a.org" "Pay" "<2026") "S-<right>")
(ost-row org-timestamp-down-day ("a.org" "Pay" "<2026") "S-<left>")
(ost-row org-timestamp-up ("a.org" "Pay" "with a date <2026-0") "S-<up>")
(ost-row org-timestamp-down ("a.org" "Pay" "with a date <2026-0") "S-<down>")
(ost-row org-toggle-timestamp-type ("a.org" "Pay" "with a date ") "S-<up>")
(ost-row org-ctrl-c-ctrl-c/stamp ("a.org" "Pay" "with a date <2026") "C-c C-c")
(ost-row org-evaluate-time-range ("a.org" "First" "CLOCK: [") "C-c C-y")
(ost-row org-clone-subtree-with-time-shift ("a.org" "Second")
  "C-c C-x c 2 RET +1w RET")
(ost-row org-add-note ("a.org" "Second") "C-c C-z noted C-c C-c")
(ost-row org-add-note/given-up ("a.org" "Second") "C-c C-z noted C-c C-k")

;;;; Clocks

(ost-row org-clock-in ("a.org" "Second") "C-c C-x C-i")
(ost-row org-clock-in/state ("a.org" "Second") "C-c C-x C-i" :let ((org-clock-in-switch-to-state . "NEXT")))
(ost-row org-clock-in/other-file ("b.org" "Ann") "C-c C-x C-i" :first "C-c C-x C-i" :at ("a.org" "Second"))
(ost-row org-clock-in/drawer ("b.org" "Ann") "C-c C-x C-i" :let ((org-clock-into-drawer . "CLOCKS")))
(ost-row org-clock-out ("b.org" "Box") "C-c C-x C-o" :first "C-c C-x C-i" :at ("a.org" "Second"))
(ost-row org-clock-out/zero ("b.org" "Box") "C-c C-x C-o" :first "C-c C-x C-i" :at ("a.org" "Second")
  :let ((org-clock-out-remove-zero-time-clocks . t)))
(ost-row org-clock-out/state ("b.org" "Box") "C-c C-x C-o" :first "C-c C-x C-i" :at ("a.org" "Second")
  :let ((org-clock-out-switch-to-state . "DONE")))
(ost-row org-clock-out/note ("b.org" "Box") "C-c C-x C-o did it C-c C-c" :first "C-c C-x C-i" :at ("a.org" "Second")
  :let ((org-log-note-clock-out . t)) :runs 2)
(ost-row org-clock-out/by-prefix ("b.org" "Box") "C-u C-c C-x C-o RET" :first "C-c C-x C-i" :at ("b.org" "Ann"))
(ost-row org-clock-cancel ("b.org" "Box") "C-c C-x C-q" :first "C-c C-x C-i" :at ("a.org" "Second"))
(ost-row org-clock-in-last ("b.org" "Box") "C-c C-x C-x" :first "C-c C-x C-i C-c C-x C-o" :at ("a.org" "Second"))
(ost-row org-clock-modify-effort-estimate ("b.org" "Box") "C-c C-x C-e 1:15 RET" :first "C-c C-x C-i" :at ("a.org" "Pay"))
(ost-row org-clock-goto ("b.org" "Box") "C-c C-x C-j C-e !" :first "C-c C-x C-i" :at ("a.org" "Second"))
(ost-row org-clock-timestamps-up ("a.org" "First" "CLOCK: [") "C-S-<up>")
(ost-row org-clock-timestamps-down ("a.org" "First" "CLOCK: [") "C-S-<down>")
(ost-row org-shiftmetaup ("a.org" "First" "CLOCK: [2026") "M-S-<up>")
(ost-row org-shiftmetadown ("a.org" "First" "CLOCK: [2026") "M-S-<down>")
(ost-row org-clock-update-time-maybe ("a.org" "First" "09:") "DEL DEL DEL 8 : C-c C-c")
(ost-row org-clock-report ("a.org" "Last") "C-e RET M-x org-clock-report RET")
(ost-row org-clocktable-shift ("a.org" "Last") "S-<right>"
  :first "C-e RET #+BEGIN: SPC clocktable SPC :block SPC 2026-05 RET #+END: RET C-p C-p C-c C-c" :at ("a.org" "Last"))
(ost-row org-dblock-update ("a.org" "BEGIN" "#+BEGIN") "C-c C-x C-u"
  :first "C-e RET * SPC BEGIN RET #+BEGIN: SPC clocktable RET #+END:" :at ("a.org" "Last"))
(ost-row org-update-all-dblocks ("a.org" "Pay") "C-u C-c C-x C-u"
  :first "C-e RET #+BEGIN: SPC clocktable RET #+END:" :at ("a.org" "Last"))
(ost-row org-resolve-clocks ("a.org" "Plain") "M-x org-resolve-clocks RET k 5 RET"
  :first "C-e RET CLOCK: SPC [2026-07-01 SPC Wed SPC 09:00]" :at ("a.org" "Plain"))
(ost-row org-todo/clocked ("a.org" "Second") "C-c C-t d" :first "C-c C-x C-i" :at ("a.org" "Second"))
(ost-row org-timer ("a.org" "Last") "C-e RET C-c C-x . x")
(ost-row org-timer-item ("a.org" "Last") "C-e RET C-c C-x - x")

;;;; Refile and archive

(ost-row org-refile ("a.org" "Second") "C-c C-w Box SPC (b.org) RET"
  :let ((org-refile-use-outline-path . nil)))
(ost-row org-refile/path ("a.org" "Twin") "C-c C-w b.org/Box/Inside RET"
  :let ((org-refile-use-outline-path . file)))
(ost-row org-refile/top ("a.org" "Second") "C-c C-w b.org RET"
  :let ((org-refile-use-outline-path . file)))
(ost-row org-refile/own-file ("a.org" "Second") "C-c C-w Last RET"
  :let ((org-refile-targets . nil)))
(ost-row org-refile/new-parent ("a.org" "Second") "C-c C-w b.org/Box/New RET y RET"
  :let ((org-refile-use-outline-path . file) (org-refile-allow-creating-parent-nodes . confirm)))
(ost-row org-refile/logged ("a.org" "Second") "C-c C-w Box SPC (b.org) RET" :let ((org-log-refile . time)))
(ost-row org-refile/reversed ("a.org" "Second") "C-c C-w Box SPC (b.org) RET" :let ((org-reverse-note-order . t)))
(ost-row org-refile/to-clock ("a.org" "Twin") "M-2 C-c C-w" :first "C-c C-x C-i" :at ("b.org" "Ann"))
(ost-row org-refile/clocked ("a.org" "Second") "C-c C-w Box SPC (b.org) RET" :first "C-c C-x C-i" :at ("a.org" "Second"))
(ost-row org-refile/kept ("a.org" "Second") "M-3 C-c C-w Box SPC (b.org) RET")
(ost-row org-refile/region ("a.org" "Twin") "C-SPC C-n C-n C-n C-n C-c C-w Box SPC (b.org) RET"
  :let ((transient-mark-mode . t)))
(ost-row org-refile/crlf ("a.org" "Second") "C-c C-w Other SPC (c.org) RET")
(ost-row org-refile/latin ("d.org" "Akte") "C-c C-w Box SPC (b.org) RET")
(ost-row org-refile/goto ("a.org" "Second") "C-u C-c C-w Box SPC (b.org) RET C-e !" :unsaved t)
(ost-row org-refile-copy ("a.org" "Second") "C-c M-w Box SPC (b.org) RET")
(when (fboundp 'org-refile-reverse)
  (ost-row org-refile-reverse ("a.org" "Second") "M-x org-refile-reverse RET Box SPC (b.org) RET"))
(ost-row org-archive-subtree ("a.org" "Project") "C-c C-x C-s")
(ost-row org-archive-subtree/dollar ("a.org" "Twin") "C-c $")
(ost-row org-archive-subtree/heading ("a.org" "Twin") "C-c $" :let ((org-archive-location . "%s_archive::* Finished Tasks")))
(ost-row org-archive-subtree/crlf ("c.org" "Windows") "C-c $")
(ost-row org-archive-subtree/latin ("d.org" "Akte") "C-c $")
(ost-row org-archive-subtree/one-file ("d.org" "Akte") "C-c $" :let ((org-archive-location . "all.org::datetree/* From %s")))
(ost-row org-archive-all-done ("a.org" "Project") "C-u C-c C-x C-s y RET")
(ost-row org-archive-all-old ("a.org" "Project") "C-u C-u C-c C-x C-s y RET")
(ost-row org-archive-subtree-default ("a.org" "Second") "C-c C-x C-a")
(ost-row org-archive-subtree-default-with-confirmation ("a.org" "Second")
  "M-x org-archive-subtree-default-with-confirmation RET y RET")
(ost-row org-archive-to-archive-sibling ("a.org" "Second") "C-c C-x A")
(ost-row org-archive-set-tag ("a.org" "Second") "M-x org-archive-set-tag RET")
(ost-row org-toggle-archive-tag/done ("a.org" "Project") "C-u C-c C-x a y RET")
(ost-row org-cut-subtree ("a.org" "Project") "C-c C-x C-w")
(ost-row org-paste-subtree ("b.org" "Box") "C-c C-x C-y" :first "C-c C-x C-w" :at ("a.org" "Twin"))
(ost-row org-metadown ("a.org" "First") "M-<down>")
(ost-row org-metaup ("a.org" "Third") "M-<up>")
(ost-row org-metaright ("a.org" "Third") "M-<right>")
(ost-row org-shiftmetaleft ("a.org" "Second") "M-S-<left>")
(ost-row org-sort ("a.org" "Project") "C-c ^ a")

;;;; Capture

(pcase-dolist (`(,key . ,keys)
               '(("e" . "Typed C-c C-c") ("f" . "Typed C-c C-c") ("p" . "Typed C-c C-c") ("o" . "Typed C-c C-c")
                 ("r" . "Typed C-c C-c") ("d" . "Typed C-c C-c") ("w" . "Typed C-c C-c") ("m" . "Typed C-c C-c")
                 ("q" . "2026-08-09 RET Typed C-c C-c") ("i" . "Typed C-c C-c") ("I" . "Typed C-c C-c")
                 ("c" . "Typed C-c C-c") ("t" . "Typed C-c C-c") ("T" . "Typed C-c C-c") ("l" . "Typed C-c C-c")
                 ("n" . "") ("j" . "") ("E" . "Typed C-c C-c") ("A" . "Typed C-c C-c") ("Z" . "Typed C-c C-c")
                 ("k" . "Typed C-c C-c") ("K" . "Typed C-c C-c C-c C-x C-o") ("R" . "Typed C-c C-c")
                 ("u" . "Typed C-c C-c") ("x" . "Typed C-c C-c") ("s" . "Typed C-c C-c")
                 ("g" . "new RET Typed C-c C-c") ("P" . "Name RET small RET 2026-08-09 RET 2026-08-10 RET Typed C-c C-c")
                 ("N" . "Typed C-c C-c") ("W" . "Typed C-c C-c") ("L" . "Typed C-c C-c") ("B" . "Typed C-c C-c")))
  (push (list (intern (concat "org-capture/" key)) 'org-capture) ost-rows)
  (ost-define (intern (concat "row/org-capture/" key)) ost-row-files
              (lambda ()
                (ost-row-run 'org-capture '("a.org" "Plain" "Some") (format "M-x org-capture RET %s %s" key keys) nil))))

(ost-row org-capture/clock-target ("a.org" "Plain") "M-x org-capture RET C Typed C-c C-c"
  :first "C-c C-x C-i" :at ("a.org" "Second"))
(ost-row org-capture/resume-other ("a.org" "Plain") "M-x org-capture RET R Typed C-c C-c C-c C-x C-o"
  :first "C-c C-x C-i" :at ("a.org" "Second"))
(ost-row org-capture/goto-last ("a.org" "Plain") "C-u C-u M-x org-capture RET C-e !"
  :first "M-x org-capture RET n" :at ("a.org" "Plain"))
(ost-row org-capture-finalize ("a.org" "Plain" "Some") "M-x org-capture RET e Typed C-c C-c")
(ost-row org-capture-finalize/stay ("a.org" "Plain") "M-x org-capture RET e Typed C-u C-c C-c !" :unsaved t)
(ost-row org-capture-finalize/todo ("a.org" "Plain") "M-x org-capture RET e Typed C-c C-t C-c C-c")
(ost-row org-capture-finalize/scheduled ("a.org" "Plain") "M-x org-capture RET e Typed C-c C-s 2026-08-09 RET C-c C-c")
(ost-row org-capture-finalize/two ("a.org" "Plain")
  "M-x org-capture RET e Typed M-x org-capture RET f Second C-c C-c C-c C-c" :runs 2)
(ost-row org-capture-kill ("a.org" "Plain") "M-x org-capture RET e Typed C-c C-k")
(ost-row org-capture-kill/clock ("a.org" "Plain") "M-x org-capture RET k Typed C-c C-k" :runs 2)
(ost-row org-capture-refile ("a.org" "Plain") "M-x org-capture RET e Typed C-c C-w Plain, SPC übung SPC (a.org) RET" :runs 2)
(ost-row org-attach-attach ("a.org" "Second") "M-x org-attach-new RET note.txt RET")
(ost-row org-attach-set-directory ("a.org" "Second")
  (format "M-x org-attach-set-directory RET C-a C-k %s RET n RET" (ost-path "there")))

;;;; The agenda

(ost-row org-agenda-todo (agenda "Second") "t d")
(ost-row org-agenda-todo/repeats (day "Pay") "t d")
(ost-row org-agenda-todo/note (agenda "Third") "t w because C-c C-c" :runs 2)
(ost-row org-agenda-todo-nextset (agenda "Call") "C-S-<right>"
  :let ((org-todo-keywords . ((sequence "TODO" "|" "DONE") (sequence "BUG" "|" "FIXED")))))
(ost-row org-agenda-todo-previousset (agenda "Call") "C-S-<left>"
  :let ((org-todo-keywords . ((sequence "TODO" "|" "DONE") (sequence "BUG" "|" "FIXED")))))
(ost-row org-agenda-todo-yesterday (day "Pay") "M-x org-agenda-todo-yesterday RET d")
(ost-row org-agenda-kill (agenda "Second") "C-k" :let ((org-agenda-confirm-kill . nil)))
(ost-row org-agenda-refile (agenda "Second") "C-c C-w Box SPC (b.org) RET")
(ost-row org-agenda-archive-default (agenda "Second") "C-c C-x C-a")
(ost-row org-agenda-archive-default-with-confirmation (agenda "Second") "a y RET")
(ost-row org-agenda-archive (agenda "Second") "$")
(ost-row org-agenda-archive/latin (agenda "Büro") "$")
(ost-row org-agenda-toggle-archive-tag (agenda "Second") "C-c C-x a")
(ost-row org-agenda-archive-to-archive-sibling (agenda "Second") "C-c C-x A")
(ost-row org-agenda-set-tags (agenda "Second") ": h RET")
(ost-row org-agenda-set-tags/ctrl-c (agenda "Call") "C-c C-q new RET" :let ((org-use-fast-tag-selection . nil)))
(ost-row org-agenda-priority (agenda "Pay") ", A")
(ost-row org-agenda-priority-up (agenda "Pay") "+")
(ost-row org-agenda-priority-up/shift (agenda "Pay") "S-<up>")
(ost-row org-agenda-priority-down (agenda "Pay") "-")
(ost-row org-agenda-add-note (agenda "Second") "z noted C-c C-c" :runs 2)
(ost-row org-agenda-schedule (agenda "Second") "C-c C-s 2026-08-09 RET")
(ost-row org-agenda-schedule/remove (agenda "Pay") "C-u C-c C-s")
(ost-row org-agenda-deadline (agenda "Second") "C-c C-d 2026-08-09 RET")
(ost-row org-agenda-do-date-later (day "Pay") "S-<right>")
(ost-row org-agenda-do-date-earlier (day "Pay") "S-<left>")
(ost-row org-agenda-date-later (day "Pay") "M-x org-agenda-date-later RET RET")
(ost-row org-agenda-date-earlier (day "Second") "M-x org-agenda-date-earlier RET RET")
(ost-row org-agenda-date-prompt (day "Pay") "> 2026-07-20 RET")
(ost-row org-agenda-clock-in (agenda "Second") "I")
(ost-row org-agenda-clock-in/other-file (agenda "Call") "I" :first "I" :at (agenda "Second"))
(ost-row org-agenda-clock-out (agenda "Call") "O" :first "I" :at (agenda "Second"))
(ost-row org-agenda-clock-cancel (agenda "Call") "X" :first "I" :at (agenda "Second"))
(ost-row org-agenda-set-property (agenda "Second") "C-c C-x p Owner RET Ann RET")
(ost-row org-agenda-set-effort (agenda "Second") "C-c C-x e 1:00 RET")
(ost-row org-agenda-capture (day "Pay") "k e Typed C-c C-c")
(ost-row org-agenda-diary-entry (day "Pay") "i d Feast RET"
  :let ((org-agenda-diary-file . "~/diary.org")))
(ost-row org-agenda-bulk-action/todo (agenda "Second") "* B t DONE RET")
(ost-row org-agenda-bulk-action/archive (agenda "Second") "m B $")
(ost-row org-agenda-bulk-action/two-files (agenda "Pay") "m C-s Call RET C-a m B $")
(ost-row org-agenda-bulk-action/tag (agenda "Pay") "* B + big RET")
(ost-row org-agenda-bulk-action/untag (agenda "Pay") "* B - home RET")
(ost-row org-agenda-bulk-action/schedule (agenda "Pay") "* B s 2026-08-09 RET")
(ost-row org-agenda-bulk-action/deadline (agenda "Pay") "* B d +1w RET")
(ost-row org-agenda-bulk-action/refile-two (agenda "Second") "m C-s Third RET C-a m B r Box SPC (b.org) RET")
(ost-row org-agenda-bulk-action/sibling (agenda "Second") "m B A")
(ost-row org-agenda-bulk-action/function (agenda "Second") "m B f org-agenda-priority-up RET")
(ost-row org-agenda-bulk-action/kept (agenda "Second") "m M-x org-agenda-bulk-action RET p t NEXT RET")
(ost-row org-agenda-undo (agenda "Second") "t d C-_" :runs 2)
(ost-row org-agenda-undo/archive (agenda "Second") "$ C-_" :runs 2)
(ost-row org-save-all-org-buffers (agenda "Second") "s")
(ost-row org-agenda-columns (agenda "Second") "C-c C-x C-c <right> e d q"
  :let ((org-columns-default-format-for-agenda . "%ITEM %TODO %Kind")))

;;;; The table itself

(unless ost-plain
  ;; Each command that is a step has a row.
  (ert-deftest store/each-step-has-a-row ()
    (should-not (seq-difference (seq-filter #'fboundp orgstore-commands)
                                (append (mapcar #'cadr ost-rows)
                                        ;; By these keys another one calls it.
                                        '(org-store-log-note)))))
  (defun ost-tell-rows ()
    "Say how many commands were compared."
    (princ (format "\ncompared %d commands of Org, in %d rows\n"
                   (length (seq-uniq (mapcar #'cadr ost-rows))) (length ost-rows))))
  (add-hook 'ost-end-hook #'ost-tell-rows))

(provide 'orgstore-commands-tests)
;;; orgstore-commands-tests.el ends here
