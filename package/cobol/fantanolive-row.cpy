      *> A row of the master (a case's row, 200 bytes).
      *> Written from layouts.json; not to be edited. To be copied
      *> below an item of level 01 to 04. Other names in front come by
      *> COPY "fantanolive-row.cpy"
      *>     REPLACING LEADING ==ROW-== BY ==OTHER-==.
      *> Digits (PIC 9) are to be read in the program's own characters:
      *> turn a record from EBCDIC first.
      *> ROW-EXCLUSIONS is a byte of bits and no character: leave it
      *> out of every conversion.
           05  ROW-KEY.
               10  ROW-STATE PIC X(2).
               10  ROW-SSN PIC X(9).
               10  ROW-CASE-TYPE PIC X(1).
           05  ROW-LOCAL-CODE PIC X(3).
           05  ROW-CASE-ID PIC X(15).
           05  ROW-LAST-NAME PIC X(20).
           05  ROW-FIRST-NAME PIC X(15).
           05  ROW-ARREARAGE PIC 9(8).
           05  ROW-TRANSFER-STATE PIC X(2).
           05  ROW-TRANSFER-LOCAL-CODE PIC X(3).
           05  ROW-PAYMENT-YEAR PIC 9(4).
           05  ROW-PAYMENT PIC 9(8).
           05  ROW-ADDRESS-LINE-1 PIC X(30).
           05  ROW-ADDRESS-LINE-2 PIC X(30).
           05  ROW-CITY PIC X(25).
           05  ROW-ADDRESS-STATE PIC X(2).
           05  ROW-ZIP PIC X(9).
           05  ROW-DATE-ISSUED PIC X(8).
           05  ROW-EXCLUSIONS PIC X(1).
           05  ROW-STATUS PIC X(1).
           05  ROW-CENTS PIC 9(2).
           05  FILLER PIC X(2).
