object two;
  path 1:(a; b) end;
  var v : array [1] of integer;
  entry procedure a; begin v[0] := v[0] + 1 end;
  entry procedure b; begin v[0] := v[0] + 1 end;
end;
