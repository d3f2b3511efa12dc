      *> Reads a batch in EBCDIC from the file batch.bin, applies it to
      *> an empty master, and prints each reject record by its fields.
      *> It takes up to 1,000 details. The records are those of the
      *> copybooks; the library turns them from EBCDIC into ASCII. What
      *> it prints of document 01's batch is in rejects.txt.
       IDENTIFICATION DIVISION.
       PROGRAM-ID. REJECTS.
       ENVIRONMENT DIVISION.
       INPUT-OUTPUT SECTION.
       FILE-CONTROL.
           SELECT BATCH-FILE ASSIGN TO "batch.bin"
               ORGANIZATION IS SEQUENTIAL
               FILE STATUS IS BATCH-STATUS.
       DATA DIVISION.
       FILE SECTION.
       FD  BATCH-FILE.
       01  BATCH-RECORD PIC X(245).
       WORKING-STORAGE SECTION.
       01  BATCH-STATUS PIC XX.
      *> What is lent to the calls: space for 1,000 rows and details.
       01  MASTER PIC X(200000).
       01  BATCH.
           05  SENT PIC X(245) OCCURS 1001.
       01  REJECT-FILE.
           05  REJECT-BYTES PIC X(245) OCCURS 1001.
       01  VERDICTS.
           05  VERDICT BINARY-DOUBLE UNSIGNED OCCURS 1000.
       01  LOCALS PIC X.
       01  RESULT-NUMBERS.
           05  ACCEPTED BINARY-DOUBLE UNSIGNED.
           05  REJECTED BINARY-DOUBLE UNSIGNED.
           05  WARNED BINARY-DOUBLE UNSIGNED.
           05  NEITHER BINARY-DOUBLE UNSIGNED.
           05  ROWS BINARY-DOUBLE UNSIGNED.
       01  PLACE BINARY-DOUBLE UNSIGNED.
      *> Lengths and numbers that go by value.
       01  MASTER-LENGTH BINARY-DOUBLE UNSIGNED VALUE 200000.
       01  NONE BINARY-DOUBLE UNSIGNED VALUE 0.
       01  BATCH-LENGTH BINARY-DOUBLE UNSIGNED.
       01  PROCESS-YEAR BINARY-DOUBLE UNSIGNED VALUE 2007.
       01  VERDICTS-LENGTH BINARY-DOUBLE UNSIGNED VALUE 1000.
       01  REJECTS-LENGTH BINARY-DOUBLE UNSIGNED VALUE 245245.
       01  RECORD-LENGTH BINARY-DOUBLE UNSIGNED VALUE 245.
       01  ANSWER BINARY-LONG UNSIGNED.
      *> A reject record, and the control record behind the last.
       01  REJECT-RECORD.
           COPY "fantanolive-reject.cpy".
       01  REJECT-CONTROL.
           COPY "fantanolive-reject-control.cpy".
      *> Work fields.
       01  RECORD-COUNT BINARY-LONG UNSIGNED VALUE 0.
       01  I BINARY-LONG UNSIGNED.
       01  REJECT-COUNT BINARY-LONG UNSIGNED VALUE 0.
       01  EDITED PIC Z(8)9.

       PROCEDURE DIVISION.
       MAIN-PART.
           PERFORM READ-BATCH
           PERFORM APPLY-BATCH
           MOVE ACCEPTED TO EDITED
           DISPLAY "accepted " FUNCTION TRIM(EDITED) NO ADVANCING
           MOVE REJECTED TO EDITED
           DISPLAY ", rejected " FUNCTION TRIM(EDITED)
           PERFORM SHOW-REJECT VARYING I FROM 1 BY 1
               UNTIL I >= RECORD-COUNT
           PERFORM SHOW-CONTROL
           STOP RUN.

       READ-BATCH.
           OPEN INPUT BATCH-FILE
           IF BATCH-STATUS NOT = "00"
               DISPLAY "batch.bin can't be read: " BATCH-STATUS
               MOVE 2 TO RETURN-CODE
               STOP RUN
           END-IF
           PERFORM UNTIL BATCH-STATUS NOT = "00"
               READ BATCH-FILE
               IF BATCH-STATUS = "00"
                   IF RECORD-COUNT = 1001
                       DISPLAY "more than 1,000 details"
                       MOVE 2 TO RETURN-CODE
                       STOP RUN
                   END-IF
                   ADD 1 TO RECORD-COUNT
                   MOVE BATCH-RECORD TO SENT(RECORD-COUNT)
               END-IF
           END-PERFORM
           CLOSE BATCH-FILE
           COMPUTE BATCH-LENGTH = 245 * RECORD-COUNT.

       APPLY-BATCH.
           CALL "fantanolive_apply" USING
               BY REFERENCE MASTER
               BY VALUE UNSIGNED SIZE 8 MASTER-LENGTH
               BY VALUE UNSIGNED SIZE 8 NONE
               BY REFERENCE BATCH
               BY VALUE UNSIGNED SIZE 8 BATCH-LENGTH
               BY REFERENCE LOCALS
               BY VALUE UNSIGNED SIZE 8 NONE
               BY VALUE UNSIGNED SIZE 8 PROCESS-YEAR
               BY REFERENCE VERDICTS
               BY VALUE UNSIGNED SIZE 8 VERDICTS-LENGTH
               BY REFERENCE REJECT-FILE
               BY VALUE UNSIGNED SIZE 8 REJECTS-LENGTH
               BY REFERENCE RESULT-NUMBERS
               RETURNING ANSWER
           END-CALL
           IF ANSWER NOT = 0 PERFORM REFUSED-PART END-IF.

      *> A detail with a code has its record in the reject file.
       SHOW-REJECT.
           IF VERDICT(I) NOT = 0
               ADD 1 TO REJECT-COUNT
               CALL "fantanolive_to_ascii" USING
                   BY REFERENCE REJECT-BYTES(REJECT-COUNT)
                   BY VALUE UNSIGNED SIZE 8 RECORD-LENGTH
                   BY REFERENCE REJECT-RECORD
                   BY VALUE UNSIGNED SIZE 8 RECORD-LENGTH
                   BY REFERENCE PLACE
                   RETURNING ANSWER
               END-CALL
               IF ANSWER NOT = 0 PERFORM REFUSED-PART END-IF
               MOVE I TO EDITED
               DISPLAY "record " FUNCTION TRIM(EDITED)
                   " type " REJ-TRANSACTION-TYPE
                   " case type " REJ-CASE-TYPE
                   " SSN *****" REJ-SSN(6:4)
               DISPLAY "  last name   " REJ-LAST-NAME
               DISPLAY "  arrearage   " REJ-ARREARAGE
               DISPLAY "  error codes " REJ-ERROR-CODES
               DISPLAY "  stored name " REJ-STORED-NAME
           END-IF.

       SHOW-CONTROL.
           CALL "fantanolive_to_ascii" USING
               BY REFERENCE REJECT-BYTES(REJECT-COUNT + 1)
               BY VALUE UNSIGNED SIZE 8 RECORD-LENGTH
               BY REFERENCE REJECT-CONTROL
               BY VALUE UNSIGNED SIZE 8 RECORD-LENGTH
               BY REFERENCE PLACE
               RETURNING ANSWER
           END-CALL
           IF ANSWER NOT = 0 PERFORM REFUSED-PART END-IF
           DISPLAY "state " RJC-STATE
               ", TANF rejected " RJC-TANF-REJECTED
               ", Non-TANF rejected " RJC-NON-TANF-REJECTED.

       REFUSED-PART.
           MOVE ANSWER TO EDITED
           DISPLAY "refused " FUNCTION TRIM(EDITED)
           MOVE 1 TO RETURN-CODE
           STOP RUN.
