{ Who leads: a lease that ends, with a token that rises with each new term. Times are seconds, as the clients' clocks
  tell them, so the clocks may differ by less than `ttl`. Whoever leads sends its token along with all that it does, and
  whoever is told refuses an older token than one that it has seen. }
object leader;
  path 1:(acquire, resign, [leads, token]) end;
  var who : array [1] of text;
      until, term : array [1] of integer;
  { Replies the token. `taken` where somebody else leads, and his time is not over. }
  entry function acquire(me : text; now, ttl : integer) : integer;
  begin
    if who[0] <> me then if who[0] <> '' then if now < until[0] then refuse('taken');
    if who[0] <> me then term[0] := term[0] + 1
    else if now >= until[0] then term[0] := term[0] + 1;
    who[0] := me;
    until[0] := now + ttl;
    acquire := term[0]
  end;
  entry procedure resign(me : text);
  begin if who[0] <> me then refuse('other'); until[0] := 0 end;
  entry function leads(now : integer) : text; begin if now < until[0] then leads := who[0] end;
  entry function token : integer; begin token := term[0] end;
end;
