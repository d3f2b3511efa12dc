      *> A case on a case page (case page, 132 bytes).
      *> Written from layouts.json; not to be edited. To be copied
      *> below an item of level 01 to 04. Other names in front come by
      *> COPY "fantanolive-page-line.cpy"
      *>     REPLACING LEADING ==PGL-== BY ==OTHER-==.
      *> Digits (PIC 9) are to be read in the program's own characters:
      *> turn a record from EBCDIC first.
           05  PGL-KEY.
               10  PGL-STATE PIC X(2).
               10  PGL-SSN PIC X(9).
               10  PGL-CASE-TYPE PIC X(1).
           05  FILLER PIC X(1).
           05  PGL-LOCAL-CODE PIC X(3).
           05  FILLER PIC X(1).
           05  PGL-LAST-NAME PIC X(20).
           05  FILLER PIC X(1).
           05  PGL-FIRST-NAME PIC X(15).
           05  FILLER PIC X(1).
           05  PGL-ARREARAGE PIC 9(8).
           05  FILLER PIC X(1).
           05  PGL-EXCLUSION-COUNT PIC 9(1).
           05  FILLER PIC X(68).
