object buffer;
  const n = 5;
  path n:(deposit; remove) end;
  path 1:(deposit, remove) end;
  var box : queue of integer;
  entry procedure deposit(x : integer); begin append(box, x) end;
  entry function remove : integer; begin remove := first(box); take(box) end;
end;
