{ A phone book: a number under each name. }
object phone_book;
  path 1:([number_of, size], enter, change, remove) end;
  var numbers : table of text;
  entry procedure enter(name, number : text);
  begin if has(numbers, name) then refuse('known') else store(numbers, name, number) end;
  entry procedure change(name, number : text);
  begin if has(numbers, name) then store(numbers, name, number) else refuse('unknown') end;
  entry procedure remove(name : text); begin erase(numbers, name) end;
  entry function number_of(name : text) : text; begin number_of := lookup(numbers, name) end;
  entry function size : integer; begin size := count(numbers) end;
end;
