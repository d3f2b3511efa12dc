      *> A line of a collection file (Chart 0-4, 240 bytes).
      *> Written from layouts.json; not to be edited. To be copied
      *> below an item of level 01 to 04. Other names in front come by
      *> COPY "fantanolive-line.cpy"
      *>     REPLACING LEADING ==LIN-== BY ==OTHER-==.
      *> Digits (PIC 9) are to be read in the program's own characters:
      *> turn a record from EBCDIC first.
           05  LIN-STATE PIC X(2).
           05  LIN-LOCAL-CODE PIC X(3).
           05  LIN-SSN PIC X(9).
           05  LIN-CASE-ID PIC X(15).
           05  LIN-LAST-NAME PIC X(20).
           05  LIN-FIRST-NAME PIC X(15).
           05  LIN-CERTIFIED-ARREARAGE PIC 9(9)V99.
           05  LIN-COLLECTION PIC 9(9)V99.
           05  LIN-ADJUSTMENT PIC 9(9)V99.
           05  LIN-ADJUSTMENT-YEAR PIC 9(4).
           05  LIN-OFFSET-YEAR PIC 9(4).
           05  LIN-RETURN-INDICATOR PIC X(1).
           05  LIN-CASE-TYPE PIC X(1).
           05  LIN-TRANSFER-STATE PIC X(2).
           05  LIN-TRANSFER-LOCAL-CODE PIC X(3).
           05  LIN-PAYMENT-NAME PIC X(35).
           05  LIN-PAYMENT-STREET PIC X(35).
           05  LIN-PAYMENT-CITY-AND-STATE PIC X(25).
           05  LIN-PAYMENT-ZIP PIC X(9).
           05  LIN-OFFSET-TYPE PIC X(3).
           05  LIN-FEE PIC 9(3)V99.
           05  LIN-INJURED-SPOUSE PIC X(1).
           05  LIN-ZERO-BALANCE-DELETE PIC X(1).
           05  LIN-TRACE-NUMBER PIC X(10).
           05  FILLER PIC X(4).
