{ A pipeline of three stages, each a program of its own, with room for four items between two of them. A stage takes from
  the one before it, waiting for an item, and puts to the one behind it, waiting for room. }
object pipeline;
  const room = 4;
  path room:(put_raw; take_raw) end;
  path room:(put_small; take_small) end;
  path 1:(put_raw, take_raw) end;
  path 1:(put_small, take_small) end;
  var raw, small : queue of text;
  entry procedure put_raw(item : text); begin append(raw, item) end;
  entry function take_raw : text; begin take_raw := first(raw); take(raw) end;
  entry procedure put_small(item : text); begin append(small, item) end;
  entry function take_small : text; begin take_small := first(small); take(small) end;
end;
