object book;
  path 1:([find, size], write, wipe) end;
  var t : table of text;
  entry procedure write(k, x : text);
  begin if has(t, k) then refuse('taken') else store(t, k, x) end;
  entry function find(k : text) : text; begin find := lookup(t, k) end;
  entry procedure wipe(k : text); begin erase(t, k) end;
  entry function size : integer; begin size := count(t) end;
end;
