{ At most `most` calls in `per` seconds, of each client by its name. Time is that of the clients' clocks. }
object rate_limit;
  const most = 10; per = 60;
  path 1:(allow) end;
  var began, used : table of integer;
  { Refused as `later` where the client has used up what it may. }
  entry procedure allow(who : text; now : integer);
  begin
    if not has(began, who) then begin store(began, who, now); store(used, who, 0) end;
    if now >= lookup(began, who) + per then begin store(began, who, now); store(used, who, 0) end;
    if lookup(used, who) >= most then refuse('later');
    store(used, who, lookup(used, who) + 1)
  end;
end;
