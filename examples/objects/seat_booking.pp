{ Seats of a hall: who holds which, and how many are booked. Whoever is gone before it has confirmed gives its seats
  back; a seat that is confirmed stays booked. Anybody may cancel for a guest whose name it knows. }
object seat_booking;
  const seats = 120;
  path 1:(book, cancel, [holder, booked, confirm]) end;
  var holders : array [seats] of text;
      total : array [1] of integer;
  entry procedure book(seat : integer; who : text);
  begin
    if who = '' then refuse('nobody');
    if holders[seat] <> '' then refuse('taken');
    holders[seat] := who;
    total[0] := total[0] + 1
  end;
  entry procedure confirm(seat : integer; who : text);
  begin if holders[seat] <> who then refuse('other') end;
  entry procedure cancel(seat : integer; who : text);
  begin
    if who = '' then refuse('nobody');
    if holders[seat] <> who then refuse('other');
    holders[seat] := '';
    total[0] := total[0] - 1
  end;
  entry function holder(seat : integer) : text; begin holder := holders[seat] end;
  entry function booked : integer; begin booked := total[0] end;
  hold book until cancel, confirm by any;
end;
