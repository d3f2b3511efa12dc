      *> The foot of a case page (case page, 132 bytes).
      *> Written from layouts.json; not to be edited. To be copied
      *> below an item of level 01 to 04. Other names in front come by
      *> COPY "fantanolive-page-foot.cpy"
      *>     REPLACING LEADING ==PGF-== BY ==OTHER-==.
      *> Digits (PIC 9) are to be read in the program's own characters:
      *> turn a record from EBCDIC first.
           05  PGF-MARK PIC X(5).
           05  FILLER PIC X(1).
           05  PGF-CASES PIC 9(4).
           05  FILLER PIC X(122).
