object loose;
  const n = 5;
  path 5:(1:(deposit); 1:(remove)) end;
  var box : queue of integer;
  entry procedure deposit(x : integer); begin append(box, x) end;
  entry function remove : integer; begin remove := first(box); take(box) end;
end;
