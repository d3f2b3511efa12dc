      *> The example batch of document 01, "The printed line", through
      *> the three calls of the library. What the program prints is in
      *> expected.txt. Records are made in ASCII and turned to EBCDIC.
      *> A buffer goes BY REFERENCE, its length BY VALUE behind it, with
      *> SIZE 8: without it GnuCOBOL passes four bytes only. The answer
      *> is 0 or the number of a refusal.
       IDENTIFICATION DIVISION.
       PROGRAM-ID. APPLY.
       DATA DIVISION.
       WORKING-STORAGE SECTION.
      *> The characters in use, in both codes.
       01  ASCII-SET PIC X(39)
           VALUE " ABCDEFGHIJKLMNOPQRSTUVWXYZ0123456789-,".
       01  EBCDIC-SET.
           05  FILLER PIC X(10) VALUE X"40C1C2C3C4C5C6C7C8C9".
           05  FILLER PIC X(9) VALUE X"D1D2D3D4D5D6D7D8D9".
           05  FILLER PIC X(8) VALUE X"E2E3E4E5E6E7E8E9".
           05  FILLER PIC X(10) VALUE X"F0F1F2F3F4F5F6F7F8F9".
           05  FILLER PIC X(2) VALUE X"606B".
      *> What is lent to the calls. The master has space for four rows.
       01  MASTER PIC X(800).
       01  BATCH.
           05  DETAIL-RECORD OCCURS 2.
               10  D-STATE PIC X(2).
               10  D-LOCAL-CODE PIC X(3).
               10  D-SSN PIC X(9).
               10  D-CASE-ID PIC X(15).
               10  D-LAST-NAME PIC X(20).
               10  D-FIRST-NAME PIC X(15).
               10  D-ARREARAGE PIC 9(8).
               10  D-TYPE PIC X.
               10  D-CASE-TYPE PIC X.
               10  FILLER PIC X(171).
           05  CONTROL-RECORD.
               10  C-STATE PIC X(2).
               10  C-CONTROL PIC X(3).
               10  C-TANF PIC 9(9).
               10  C-NON-TANF PIC 9(9).
               10  C-TANF-AMOUNT PIC 9(11).
               10  C-NON-TANF-AMOUNT PIC 9(11).
               10  FILLER PIC X(200).
       01  LOCALS PIC X.
       01  REJECTS.
           05  REJECT-BYTES PIC X(245) OCCURS 3.
       01  OUT-FILE.
           05  OUT-BYTES PIC X(245) OCCURS 5.
       01  CASE-KEY PIC X(12) VALUE "OH123456789N".
       01  STATE-CODE PIC X(2) VALUE "OH".
       01  FILE-DATE PIC X(8) VALUE "20071231".
       01  VERDICTS.
           05  VERDICT BINARY-DOUBLE UNSIGNED OCCURS 2.
       01  RESULT-NUMBERS.
           05  ACCEPTED BINARY-DOUBLE UNSIGNED.
           05  REJECTED BINARY-DOUBLE UNSIGNED.
           05  WARNED BINARY-DOUBLE UNSIGNED.
           05  NEITHER BINARY-DOUBLE UNSIGNED.
           05  ROWS BINARY-DOUBLE UNSIGNED.
       01  PLACE BINARY-DOUBLE UNSIGNED.
       01  RECORD-COUNT BINARY-DOUBLE UNSIGNED.
      *> Lengths and numbers that go by value.
       01  MASTER-LENGTH BINARY-DOUBLE UNSIGNED VALUE 800.
       01  ROWS-AT-ENTRY BINARY-DOUBLE UNSIGNED VALUE 0.
       01  BATCH-LENGTH BINARY-DOUBLE UNSIGNED VALUE 735.
       01  LOCALS-LENGTH BINARY-DOUBLE UNSIGNED VALUE 0.
       01  PROCESS-YEAR BINARY-DOUBLE UNSIGNED VALUE 2007.
       01  VERDICTS-LENGTH BINARY-DOUBLE UNSIGNED VALUE 2.
       01  REJECTS-LENGTH BINARY-DOUBLE UNSIGNED VALUE 735.
       01  KEY-LENGTH BINARY-DOUBLE UNSIGNED VALUE 12.
       01  STATE-LENGTH BINARY-DOUBLE UNSIGNED VALUE 2.
       01  DATE-LENGTH BINARY-DOUBLE UNSIGNED VALUE 8.
       01  OUT-LENGTH BINARY-DOUBLE UNSIGNED VALUE 1225.
      *> An answer is below 64.
       01  ANSWER BINARY-LONG UNSIGNED.
      *> Copies, to see that a refusal writes nothing.
       01  MASTER-BEFORE PIC X(800).
       01  REJECTS-BEFORE PIC X(735).
       01  VERDICTS-BEFORE PIC X(16).
       01  RESULT-BEFORE PIC X(40).
      *> Records as they are shown, in ASCII.
       01  REJECT-RECORD.
           05  FILLER PIC X(5).
           05  R-SSN PIC X(9).
           05  FILLER PIC X(15).
           05  R-LAST-NAME PIC X(20).
           05  FILLER PIC X(15).
           05  R-ARREARAGE PIC X(8).
           05  R-TYPE PIC X.
           05  R-CASE-TYPE PIC X.
           05  FILLER PIC X(153).
           05  R-CODES PIC X(12).
           05  R-STORED-NAME PIC X(4).
           05  FILLER PIC X(2).
       01  REJECT-CONTROL.
           05  T-STATE PIC X(2).
           05  FILLER PIC X(3).
           05  T-TANF-ACCEPTED PIC X(9).
           05  T-TANF-REJECTED PIC X(9).
           05  T-NON-TANF-ACCEPTED PIC X(9).
           05  T-NON-TANF-REJECTED PIC X(9).
           05  T-TANF-WARNED PIC X(9).
           05  T-NON-TANF-WARNED PIC X(9).
           05  FILLER PIC X(186).
       01  REC-RECORD.
           05  FILLER PIC X(3).
           05  Q-STATE PIC X(2).
           05  Q-LOCAL-CODE PIC X(3).
           05  Q-SSN PIC X(9).
           05  Q-CASE-ID PIC X(15).
           05  Q-LAST-NAME PIC X(20).
           05  Q-FIRST-NAME PIC X(10).
           05  Q-ARREARAGE PIC X(8).
           05  Q-CASE-TYPE PIC X.
           05  Q-DATE-ISSUED PIC X(8).
           05  FILLER PIC X(2).
           05  Q-EXCLUSIONS PIC X(24).
           05  FILLER PIC X(140).
       01  RCT-RECORD.
           05  FILLER PIC X(3).
           05  U-STATE PIC X(2).
           05  U-TANF PIC X(9).
           05  U-NON-TANF PIC X(9).
           05  U-TOTAL PIC X(9).
           05  U-DATE PIC X(8).
           05  FILLER PIC X(205).
      *> Work fields.
       01  I BINARY-LONG UNSIGNED.
       01  CODE-NUMBER BINARY-LONG UNSIGNED.
       01  CODE-TEXT PIC 99.
       01  REST BINARY-DOUBLE UNSIGNED.
       01  LOW-BIT BINARY-LONG UNSIGNED.
       01  REJECT-COUNT BINARY-LONG UNSIGNED VALUE 0.
       01  EDITED PIC Z(19)9.
       01  LINE-TEXT PIC X(120).
       01  LINE-END BINARY-LONG UNSIGNED.

       PROCEDURE DIVISION.
       MAIN-PART.
           PERFORM MAKE-BATCH
           INSPECT CASE-KEY CONVERTING ASCII-SET TO EBCDIC-SET
           INSPECT STATE-CODE CONVERTING ASCII-SET TO EBCDIC-SET
           INSPECT FILE-DATE CONVERTING ASCII-SET TO EBCDIC-SET
           PERFORM APPLY-BATCH
           IF ANSWER NOT = 0 PERFORM REFUSED-PART END-IF
           PERFORM SHOW-RESULT
           PERFORM SHOW-VERDICT VARYING I FROM 1 BY 1 UNTIL I > 2
           PERFORM SHOW-REJECT VARYING I FROM 1 BY 1 UNTIL I > 2
           PERFORM SHOW-REJECT-CONTROL
           PERFORM FIND-CASE
           PERFORM RECONCILE-STATE
           PERFORM SHORT-VERDICT-LIST
           STOP RUN.

      *> A for SMITH JOHN of 25 dollars, M for SMYTH of 100, and the
      *> control record with totals 0, 2, 0, 125.
       MAKE-BATCH.
           MOVE SPACES TO BATCH
           MOVE "OH" TO D-STATE(1) D-STATE(2) C-STATE
           MOVE "123456789" TO D-SSN(1) D-SSN(2)
           MOVE "SMITH" TO D-LAST-NAME(1)
           MOVE "JOHN" TO D-FIRST-NAME(1)
           MOVE 25 TO D-ARREARAGE(1)
           MOVE "A" TO D-TYPE(1)
           MOVE "SMYTH" TO D-LAST-NAME(2)
           MOVE 100 TO D-ARREARAGE(2)
           MOVE "M" TO D-TYPE(2)
           MOVE "N" TO D-CASE-TYPE(1) D-CASE-TYPE(2)
           MOVE "CTL" TO C-CONTROL
           MOVE 0 TO C-TANF
           MOVE 2 TO C-NON-TANF
           MOVE 0 TO C-TANF-AMOUNT
           MOVE 125 TO C-NON-TANF-AMOUNT
           INSPECT BATCH CONVERTING ASCII-SET TO EBCDIC-SET.

       APPLY-BATCH.
           CALL STATIC "fantanolive_apply" USING
               BY REFERENCE MASTER
               BY VALUE UNSIGNED SIZE 8 MASTER-LENGTH
               BY VALUE UNSIGNED SIZE 8 ROWS-AT-ENTRY
               BY REFERENCE BATCH
               BY VALUE UNSIGNED SIZE 8 BATCH-LENGTH
               BY REFERENCE LOCALS
               BY VALUE UNSIGNED SIZE 8 LOCALS-LENGTH
               BY VALUE UNSIGNED SIZE 8 PROCESS-YEAR
               BY REFERENCE VERDICTS
               BY VALUE UNSIGNED SIZE 8 VERDICTS-LENGTH
               BY REFERENCE REJECTS
               BY VALUE UNSIGNED SIZE 8 REJECTS-LENGTH
               BY REFERENCE RESULT-NUMBERS
               RETURNING ANSWER
           END-CALL.

       SHOW-RESULT.
           MOVE SPACES TO LINE-TEXT
           MOVE 1 TO LINE-END
           STRING "OH accepted " DELIMITED BY SIZE
               INTO LINE-TEXT POINTER LINE-END
           MOVE ACCEPTED TO EDITED PERFORM ADD-NUMBER
           STRING " rejected " DELIMITED BY SIZE
               INTO LINE-TEXT POINTER LINE-END
           MOVE REJECTED TO EDITED PERFORM ADD-NUMBER
           STRING " warned " DELIMITED BY SIZE
               INTO LINE-TEXT POINTER LINE-END
           MOVE WARNED TO EDITED PERFORM ADD-NUMBER
           STRING " neither " DELIMITED BY SIZE
               INTO LINE-TEXT POINTER LINE-END
           MOVE NEITHER TO EDITED PERFORM ADD-NUMBER
           STRING " rows " DELIMITED BY SIZE
               INTO LINE-TEXT POINTER LINE-END
           MOVE ROWS TO EDITED PERFORM ADD-NUMBER
           DISPLAY LINE-TEXT(1:LINE-END - 1).

       ADD-NUMBER.
           STRING FUNCTION TRIM(EDITED) DELIMITED BY SIZE
               INTO LINE-TEXT POINTER LINE-END.

      *> The code c is in the verdict where bit c is set.
       SHOW-VERDICT.
           MOVE I TO EDITED
           DISPLAY "detail " FUNCTION TRIM(EDITED) ":" NO ADVANCING
           IF VERDICT(I) = 0 DISPLAY " no codes" NO ADVANCING END-IF
           MOVE VERDICT(I) TO REST
           PERFORM VARYING CODE-NUMBER FROM 0 BY 1
                   UNTIL CODE-NUMBER > 63
               DIVIDE REST BY 2 GIVING REST REMAINDER LOW-BIT
               IF LOW-BIT = 1
                   MOVE CODE-NUMBER TO CODE-TEXT
                   DISPLAY " " CODE-TEXT NO ADVANCING
               END-IF
           END-PERFORM
           DISPLAY X"0A" NO ADVANCING.

      *> The reject file has a record per detail with a code.
       SHOW-REJECT.
           IF VERDICT(I) NOT = 0
               ADD 1 TO REJECT-COUNT
               MOVE REJECT-BYTES(REJECT-COUNT) TO REJECT-RECORD
               INSPECT REJECT-RECORD CONVERTING EBCDIC-SET TO ASCII-SET
               MOVE REJECT-COUNT TO EDITED
               DISPLAY "reject record " FUNCTION TRIM(EDITED)
               DISPLAY "  SSN [" R-SSN "]"
               DISPLAY "  last name [" R-LAST-NAME "]"
               DISPLAY "  arrearage [" R-ARREARAGE "]"
               DISPLAY "  type [" R-TYPE "]"
               DISPLAY "  case type [" R-CASE-TYPE "]"
               DISPLAY "  codes [" R-CODES "]"
               DISPLAY "  stored name [" R-STORED-NAME "]"
           END-IF.

       SHOW-REJECT-CONTROL.
           MOVE REJECT-BYTES(REJECT-COUNT + 1) TO REJECT-CONTROL
           INSPECT REJECT-CONTROL CONVERTING EBCDIC-SET TO ASCII-SET
           DISPLAY "reject control record"
           DISPLAY "  state [" T-STATE "]"
           DISPLAY "  TANF accepted [" T-TANF-ACCEPTED "]"
           DISPLAY "  TANF rejected [" T-TANF-REJECTED "]"
           DISPLAY "  Non-TANF accepted [" T-NON-TANF-ACCEPTED "]"
           DISPLAY "  Non-TANF rejected [" T-NON-TANF-REJECTED "]"
           DISPLAY "  TANF warned [" T-TANF-WARNED "]"
           DISPLAY "  Non-TANF warned [" T-NON-TANF-WARNED "]".

       FIND-CASE.
           CALL STATIC "fantanolive_find" USING
               BY REFERENCE MASTER
               BY VALUE UNSIGNED SIZE 8 MASTER-LENGTH
               BY VALUE UNSIGNED SIZE 8 ROWS
               BY REFERENCE CASE-KEY
               BY VALUE UNSIGNED SIZE 8 KEY-LENGTH
               BY REFERENCE PLACE
               RETURNING ANSWER
           END-CALL
           IF ANSWER NOT = 0 PERFORM REFUSED-PART END-IF
           MOVE PLACE TO EDITED
           INSPECT CASE-KEY CONVERTING EBCDIC-SET TO ASCII-SET
           DISPLAY "key " CASE-KEY ": place " FUNCTION TRIM(EDITED).

       RECONCILE-STATE.
           CALL STATIC "fantanolive_reconcile" USING
               BY REFERENCE MASTER
               BY VALUE UNSIGNED SIZE 8 MASTER-LENGTH
               BY VALUE UNSIGNED SIZE 8 ROWS
               BY REFERENCE STATE-CODE
               BY VALUE UNSIGNED SIZE 8 STATE-LENGTH
               BY REFERENCE FILE-DATE
               BY VALUE UNSIGNED SIZE 8 DATE-LENGTH
               BY REFERENCE OUT-FILE
               BY VALUE UNSIGNED SIZE 8 OUT-LENGTH
               BY REFERENCE RECORD-COUNT
               RETURNING ANSWER
           END-CALL
           IF ANSWER NOT = 0 PERFORM REFUSED-PART END-IF
           MOVE RECORD-COUNT TO EDITED
           DISPLAY "reconciliation: records " FUNCTION TRIM(EDITED)
           PERFORM SHOW-REC VARYING I FROM 1 BY 1
               UNTIL I > RECORD-COUNT
           MOVE OUT-BYTES(RECORD-COUNT + 1) TO RCT-RECORD
           INSPECT RCT-RECORD CONVERTING EBCDIC-SET TO ASCII-SET
           DISPLAY "RCT record"
           DISPLAY "  state [" U-STATE "]"
           DISPLAY "  TANF [" U-TANF "]"
           DISPLAY "  Non-TANF [" U-NON-TANF "]"
           DISPLAY "  total [" U-TOTAL "]"
           DISPLAY "  date [" U-DATE "]".

       SHOW-REC.
           MOVE OUT-BYTES(I) TO REC-RECORD
           INSPECT REC-RECORD CONVERTING EBCDIC-SET TO ASCII-SET
           MOVE I TO EDITED
           DISPLAY "REC record " FUNCTION TRIM(EDITED)
           DISPLAY "  state [" Q-STATE "]"
           DISPLAY "  local code [" Q-LOCAL-CODE "]"
           DISPLAY "  SSN [" Q-SSN "]"
           DISPLAY "  case ID [" Q-CASE-ID "]"
           DISPLAY "  last name [" Q-LAST-NAME "]"
           DISPLAY "  first name [" Q-FIRST-NAME "]"
           DISPLAY "  arrearage [" Q-ARREARAGE "]"
           DISPLAY "  case type [" Q-CASE-TYPE "]"
           DISPLAY "  date issued [" Q-DATE-ISSUED "]"
           DISPLAY "  exclusions [" Q-EXCLUSIONS "]".

      *> The same batch again, with a verdict list that is too short.
       SHORT-VERDICT-LIST.
           MOVE MASTER TO MASTER-BEFORE
           MOVE REJECTS TO REJECTS-BEFORE
           MOVE VERDICTS TO VERDICTS-BEFORE
           MOVE RESULT-NUMBERS TO RESULT-BEFORE
           MOVE ROWS TO ROWS-AT-ENTRY
           MOVE 1 TO VERDICTS-LENGTH
           PERFORM APPLY-BATCH
           MOVE ANSWER TO EDITED
           DISPLAY "verdict list of 1 for 2 details: refused "
               FUNCTION TRIM(EDITED) ", " NO ADVANCING
           IF MASTER = MASTER-BEFORE AND REJECTS = REJECTS-BEFORE
                   AND VERDICTS = VERDICTS-BEFORE
                   AND RESULT-NUMBERS = RESULT-BEFORE
               DISPLAY "nothing written"
           ELSE
               DISPLAY "something written"
               MOVE 1 TO RETURN-CODE
           END-IF.

       REFUSED-PART.
           MOVE ANSWER TO EDITED
           DISPLAY "refused " FUNCTION TRIM(EDITED)
           MOVE 1 TO RETURN-CODE
           STOP RUN.
