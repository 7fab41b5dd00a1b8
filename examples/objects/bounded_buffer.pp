{ A bounded buffer: producers put items, consumers get them in the order in which they came. }
object bounded_buffer;
  const room = 8;
  { at most 8 puts are ahead of the gets, and no get is ahead of the puts }
  path room:((put, restored); get) end;
  { one at a time on the queue }
  path 1:(put, get, [waiting]) end;
  var items : queue of text;
  entry procedure put(item : text); begin append(items, item) end;
  entry function get : text; begin get := first(items); take(items) end;
  entry function waiting : integer; begin waiting := count(items) end;
  { After a start: once for each item that was saved, since paths begin anew. }
  entry procedure restored; begin end;
end;
