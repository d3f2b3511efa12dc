      *> The heading of a case page (case page, 132 bytes).
      *> Written from layouts.json; not to be edited. To be copied
      *> below an item of level 01 to 04. Other names in front come by
      *> COPY "fantanolive-page-heading.cpy"
      *>     REPLACING LEADING ==PGH-== BY ==OTHER-==.
      *> Digits (PIC 9) are to be read in the program's own characters:
      *> turn a record from EBCDIC first.
           05  PGH-MARK PIC X(5).
           05  FILLER PIC X(1).
           05  PGH-PAGE-NUMBER PIC 9(6).
           05  FILLER PIC X(120).
