{ Readers and writers: readers together, at most four of them, or one writer alone. }
object readers_writers;
  const lines = 32;
  path 1:([read], write) end;
  path 4:(read) end;
  var page : array [lines] of text;
  entry function read(line : integer) : text; begin read := page[line] end;
  entry procedure write(line : integer; words : text); begin page[line] := words end;
end;
