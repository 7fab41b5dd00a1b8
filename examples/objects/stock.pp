{ Stock, of which some can be put aside for ten minutes, as the server counts them: then, and where whoever put it aside
  is gone, it is there again. Each reservation has an id of its own, so that it is made once; at most 1,024 ids are
  known at a time, and at most one reservation ends in a second. }
object stock;
  const ttl = 600;
  path 1:(restock, reserve, confirm, release, tick, [available, is_open]) end;
  var stock : table of integer;
      { of each reservation that is open: what, and how many }
      item : table of text;
      amount : table of integer;
      { when each id ends, and the ids in the order in which they end, also those that are not open any more }
      until : table of integer;
      order : queue of text;
      seconds : array [1] of integer;
  entry procedure restock(what : text; n : integer);
  begin if has(stock, what) then store(stock, what, lookup(stock, what) + n) else store(stock, what, n) end;
  entry procedure reserve(id, what : text; n : integer);
  begin
    if has(until, id) then refuse('known');
    if lookup(stock, what) < n then refuse('soldout');
    store(stock, what, lookup(stock, what) - n);
    store(item, id, what);
    store(amount, id, n);
    store(until, id, seconds[0] + ttl);
    append(order, id)
  end;
  { It is paid: it does not end any more. `over` where it has ended. }
  entry procedure confirm(id, what : text; n : integer);
  begin
    if not has(item, id) then refuse('over');
    erase(item, id); erase(amount, id)
  end;
  { It is given back before its end; where it has ended nothing is left to give back. }
  entry procedure release(id, what : text; n : integer);
  begin
    if has(item, id) then
    begin
      store(stock, lookup(item, id), lookup(stock, lookup(item, id)) + lookup(amount, id));
      erase(item, id); erase(amount, id)
    end
  end;
  { A second is over. Where the oldest id ends and is open, its stock is there again. }
  entry procedure tick;
  begin
    seconds[0] := seconds[0] + 1;
    if count(order) > 0 then
      if lookup(until, first(order)) <= seconds[0] then
      begin
        if has(item, first(order)) then
        begin
          store(stock, lookup(item, first(order)),
            lookup(stock, lookup(item, first(order))) + lookup(amount, first(order)));
          erase(item, first(order)); erase(amount, first(order))
        end;
        erase(until, first(order)); take(order)
      end
  end;
  entry function available(what : text) : integer; begin available := lookup(stock, what) end;
  entry function is_open(id : text) : text;
  begin if has(item, id) then is_open := 'yes' else is_open := 'no' end;
  hold reserve until release, confirm;
  every 1 call tick;
end;
