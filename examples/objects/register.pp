{ A register: readers share it, whoever writes or adds is alone. }
object register;
  path 1:([read], write, add) end;
  var value : array [1] of integer;
  entry function read : integer; begin read := value[0] end;
  entry procedure write(x : integer); begin value[0] := x end;
  entry procedure add(x : integer); begin value[0] := value[0] + x end;
end;
