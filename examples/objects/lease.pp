{ Who leads: the first that asks, until it resigns, is gone, or has not renewed its lease for ten seconds, as the server
  counts them. Each new leader has a higher term, which it sends along with all that it does; whoever is told refuses a
  lower term than one that it has seen. }
object lease;
  const ttl = 10;
  path 1:(lead, renew, resign, tick, [leader, term]) end;
  { who leads, or led last; its term; and the seconds that are left of its lease }
  var who : array [1] of text;
      last, left : array [1] of integer;
  { Replies the term. `taken` while somebody leads. }
  entry function lead(me : text) : integer;
  begin
    if left[0] > 0 then refuse('taken');
    who[0] := me;
    last[0] := last[0] + 1;
    left[0] := ttl;
    lead := last[0]
  end;
  { `over` where the lease has ended: whoever led leads no more. }
  entry procedure renew(mine : integer);
  begin
    if mine <> last[0] then refuse('over');
    if left[0] = 0 then refuse('over');
    left[0] := ttl
  end;
  { Of a term that is over it changes nothing. }
  entry procedure resign(me : text; mine : integer); begin if mine = last[0] then left[0] := 0 end;
  entry procedure tick; begin if left[0] > 0 then left[0] := left[0] - 1 end;
  entry function leader : text; begin if left[0] > 0 then leader := who[0] end;
  entry function term : integer; begin term := last[0] end;
  hold lead until resign;
  every 1 call tick;
end;
