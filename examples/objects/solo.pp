object solo;
  path 1:([put]) end;
  var v : array [1] of integer;
  entry procedure put(x : integer); begin v[0] := x end;
end;
