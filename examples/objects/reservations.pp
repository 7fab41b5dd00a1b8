{ Stock, and reservations that end by themselves. Time comes from one program that calls `tick`, and then `expire`
  until it is refused. Each reservation has an id of its own, so that it is made once; at most 1,024 ids are known at a time. }
object reservations;
  const ttl = 600;
  path 1:(restock, reserve, confirm, release, tick, expire, [available, is_open]) end;
  var stock : table of integer;
      { of each reservation that is open: what, and how many }
      item : table of text;
      amount : table of integer;
      { when each id ends, and the ids in the order in which they end, also those that are not open any more }
      until : table of integer;
      order : queue of text;
      clock : array [1] of integer;
  entry procedure restock(what : text; n : integer);
  begin if has(stock, what) then store(stock, what, lookup(stock, what) + n) else store(stock, what, n) end;
  entry procedure reserve(id, what : text; n : integer);
  begin
    if has(until, id) then refuse('known');
    if lookup(stock, what) < n then refuse('soldout');
    store(stock, what, lookup(stock, what) - n);
    store(item, id, what);
    store(amount, id, n);
    store(until, id, clock[0] + ttl);
    append(order, id)
  end;
  { It is paid: it does not end any more. }
  entry procedure confirm(id : text); begin erase(item, id); erase(amount, id) end;
  { It is given back before its end. }
  entry procedure release(id : text);
  begin
    store(stock, lookup(item, id), lookup(stock, lookup(item, id)) + lookup(amount, id));
    erase(item, id); erase(amount, id)
  end;
  entry procedure tick(now : integer); begin if now > clock[0] then clock[0] := now end;
  { Ends the oldest id: where it is open, its stock is there again. Refused as `young` where its time is not over, and
    as `empty` where there is none. }
  entry function expire : text;
  begin
    if lookup(until, first(order)) > clock[0] then refuse('young');
    if has(item, first(order)) then
    begin
      store(stock, lookup(item, first(order)),
        lookup(stock, lookup(item, first(order))) + lookup(amount, first(order)));
      erase(item, first(order)); erase(amount, first(order))
    end;
    expire := first(order);
    erase(until, first(order)); take(order)
  end;
  entry function available(what : text) : integer; begin available := lookup(stock, what) end;
  entry function is_open(id : text) : text;
  begin if has(item, id) then is_open := 'yes' else is_open := 'no' end;
end;
