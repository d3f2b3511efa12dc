      *> A master from before the cents is converted, then a weekly
      *> collection file of four lines is posted to it. What the program
      *> prints is in post.txt. Records are made in ASCII and turned to
      *> EBCDIC. A buffer goes BY REFERENCE, its length BY VALUE behind
      *> it, with SIZE 8: without it GnuCOBOL passes four bytes only.
      *> The answer is 0 or the number of a refusal.
       IDENTIFICATION DIVISION.
       PROGRAM-ID. POST.
       DATA DIVISION.
       WORKING-STORAGE SECTION.
      *> The characters in use, in both codes.
       01  ASCII-SET PIC X(37)
           VALUE " ABCDEFGHIJKLMNOPQRSTUVWXYZ0123456789".
       01  EBCDIC-SET.
           05  FILLER PIC X(10) VALUE X"40C1C2C3C4C5C6C7C8C9".
           05  FILLER PIC X(9) VALUE X"D1D2D3D4D5D6D7D8D9".
           05  FILLER PIC X(8) VALUE X"E2E3E4E5E6E7E8E9".
           05  FILLER PIC X(10) VALUE X"F0F1F2F3F4F5F6F7F8F9".
      *> What is lent to the calls.
       01  MASTER.
           05  CASE-ROW OCCURS 2.
               10  W-KEY PIC X(12).
               10  W-LOCAL-CODE PIC X(3).
               10  FILLER PIC X(15).
               10  W-LAST-NAME PIC X(20).
               10  FILLER PIC X(15).
               10  W-DOLLARS PIC 9(8).
               10  FILLER PIC X(5).
               10  W-PAYMENT PIC 9(12).
               10  FILLER PIC X(104).
               10  W-EXCLUSIONS PIC X.
               10  W-STATUS PIC X.
               10  W-CENTS PIC X(2).
               10  FILLER PIC X(2).
       01  COLLECTION-FILE.
           05  COLLECTION-LINE OCCURS 4.
               10  L-STATE PIC X(2).
               10  FILLER PIC X(3).
               10  L-SSN PIC X(9).
               10  FILLER PIC X(61).
               10  L-COLLECTION PIC 9(9)V99.
               10  L-ADJUSTMENT PIC 9(9)V99.
               10  FILLER PIC X(9).
               10  L-CASE-TYPE PIC X.
               10  FILLER PIC X(133).
           05  LAST-RECORD.
               10  T-STATE PIC X(2).
               10  FILLER PIC X(3).
               10  T-CONTROL PIC X(9).
               10  FILLER PIC X(20).
               10  T-ADJUSTMENTS PIC 9(15).
               10  T-COLLECTIONS PIC 9(15).
               10  FILLER PIC X(176).
       01  LINE-LIST.
           05  LINE-NUMBER BINARY-LONG UNSIGNED OCCURS 4.
       01  LISTED BINARY-DOUBLE UNSIGNED.
      *> Lengths and numbers that go by value.
       01  MASTER-LENGTH BINARY-DOUBLE UNSIGNED VALUE 400.
       01  ROW-COUNT BINARY-DOUBLE UNSIGNED VALUE 2.
       01  FILE-LENGTH BINARY-DOUBLE UNSIGNED VALUE 1200.
       01  LIST-LENGTH BINARY-DOUBLE UNSIGNED VALUE 4.
      *> An answer is below 64.
       01  ANSWER BINARY-LONG UNSIGNED.
      *> Copies, to see that a refusal writes nothing.
       01  MASTER-BEFORE PIC X(400).
       01  LIST-BEFORE PIC X(16).
      *> A row as it is shown, in ASCII.
       01  SHOWN-ROW.
           05  FILLER PIC X(65).
           05  S-DOLLARS PIC X(8).
           05  FILLER PIC X(122).
           05  S-STATUS PIC X.
           05  S-CENTS PIC X(2).
           05  FILLER PIC X(2).
       01  I BINARY-LONG UNSIGNED.
       01  EDITED PIC Z(17)9.
       PROCEDURE DIVISION.
       MAIN-PART.
           PERFORM MAKE-MASTER
           PERFORM ADD-CENTS
           DISPLAY "converted: rows 2"
           PERFORM MAKE-FILE
           PERFORM POST-FILE
           IF ANSWER NOT = 0 PERFORM REFUSED-PART END-IF
           PERFORM SHOW-LIST
           PERFORM SHOW-ROW VARYING I FROM 1 BY 1 UNTIL I > 2
           PERFORM SHORT-LINE-LIST
           STOP RUN.

      *> Two live rows without cents, of 25 and of 100 dollars. Column
      *> 195, the exclusion set, is no character.
       MAKE-MASTER.
           MOVE SPACES TO MASTER
           MOVE "OH123456789N" TO W-KEY(1)
           MOVE "OH987654321A" TO W-KEY(2)
           MOVE "000" TO W-LOCAL-CODE(1) W-LOCAL-CODE(2)
           MOVE "SMITH" TO W-LAST-NAME(1) W-LAST-NAME(2)
           MOVE 25 TO W-DOLLARS(1)
           MOVE 100 TO W-DOLLARS(2)
           MOVE 0 TO W-PAYMENT(1) W-PAYMENT(2)
           INSPECT MASTER CONVERTING ASCII-SET TO EBCDIC-SET
           MOVE LOW-VALUE TO W-EXCLUSIONS(1) W-EXCLUSIONS(2).

       ADD-CENTS.
           CALL STATIC "fantanolive_add_cents" USING
               BY REFERENCE MASTER
               BY VALUE UNSIGNED SIZE 8 MASTER-LENGTH
               BY VALUE UNSIGNED SIZE 8 ROW-COUNT
               RETURNING ANSWER
           END-CALL
           IF ANSWER NOT = 0 PERFORM REFUSED-PART END-IF.

      *> 10.01 collected and 0.50 adjusted; then 20.00 collected of
      *> 14.99, which deletes the case; so 1.00 is not posted.
       MAKE-FILE.
           MOVE SPACES TO COLLECTION-FILE
           MOVE "OH" TO L-STATE(1) L-STATE(2) L-STATE(3) L-STATE(4)
           MOVE "123456789" TO L-SSN(1) L-SSN(3) L-SSN(4)
           MOVE "987654321" TO L-SSN(2)
           MOVE "N" TO L-CASE-TYPE(1) L-CASE-TYPE(3) L-CASE-TYPE(4)
           MOVE "A" TO L-CASE-TYPE(2)
           MOVE 10.01 TO L-COLLECTION(1)
           MOVE 0 TO L-COLLECTION(2) L-COLLECTION(4)
           MOVE 20.00 TO L-COLLECTION(3)
           MOVE 0 TO L-ADJUSTMENT(1) L-ADJUSTMENT(3)
           MOVE 0.50 TO L-ADJUSTMENT(2)
           MOVE 1.00 TO L-ADJUSTMENT(4)
           MOVE "OH" TO T-STATE
           MOVE "TOTAL" TO T-CONTROL
           MOVE 2 TO T-ADJUSTMENTS
           MOVE 2 TO T-COLLECTIONS
           INSPECT COLLECTION-FILE CONVERTING ASCII-SET TO EBCDIC-SET.

       POST-FILE.
           CALL STATIC "fantanolive_post" USING
               BY REFERENCE MASTER
               BY VALUE UNSIGNED SIZE 8 MASTER-LENGTH
               BY VALUE UNSIGNED SIZE 8 ROW-COUNT
               BY REFERENCE COLLECTION-FILE
               BY VALUE UNSIGNED SIZE 8 FILE-LENGTH
               BY REFERENCE LINE-LIST
               BY VALUE UNSIGNED SIZE 8 LIST-LENGTH
               BY REFERENCE LISTED
               RETURNING ANSWER
           END-CALL.

       SHOW-LIST.
           MOVE LISTED TO EDITED
           DISPLAY "posted: listed " FUNCTION TRIM(EDITED)
           PERFORM VARYING I FROM 1 BY 1 UNTIL I > LISTED
               MOVE LINE-NUMBER(I) TO EDITED
               DISPLAY "line " FUNCTION TRIM(EDITED) " not posted"
           END-PERFORM.

       SHOW-ROW.
           MOVE CASE-ROW(I) TO SHOWN-ROW
           INSPECT SHOWN-ROW CONVERTING EBCDIC-SET TO ASCII-SET
           MOVE I TO EDITED
           DISPLAY "row " FUNCTION TRIM(EDITED) ": dollars [" S-DOLLARS
               "] cents [" S-CENTS "] status [" S-STATUS "]".

      *> The same file again, with a line list that is too short.
       SHORT-LINE-LIST.
           MOVE MASTER TO MASTER-BEFORE
           MOVE LINE-LIST TO LIST-BEFORE
           MOVE 3 TO LIST-LENGTH
           PERFORM POST-FILE
           MOVE ANSWER TO EDITED
           DISPLAY "line list of 3 for 4 lines: refused "
               FUNCTION TRIM(EDITED) ", " NO ADVANCING
           IF MASTER = MASTER-BEFORE AND LINE-LIST = LIST-BEFORE
                   AND LISTED = 1
               DISPLAY "nothing written"
           ELSE
               DISPLAY "something written"
               MOVE 1 TO RETURN-CODE
           END-IF.

       REFUSED-PART.
           MOVE ANSWER TO EDITED
           DISPLAY "refused " FUNCTION TRIM(EDITED)
           MOVE 1 TO RETURN-CODE
           STOP RUN.
