{ A print spooler: pages wait in a queue, two printers fetch them, print and finish. What a printer has fetched that is
  gone waits again, and the printer is free. }
object print_spooler;
  const printers = 2; most = 500;
  { At most 500 pages are not printed yet, those that are being printed included. }
  path most:(submit; finish) end;
  { A fetch waits until there is a page for it. }
  path (submit, give_back); fetch end;
  { A printer is busy from the start of its fetch to the end of its finish. }
  path printers:(fetch; (finish, give_back)) end;
  { One at a time on the queue; a printer may finish while a page comes in. }
  path 1:(submit, fetch, give_back, [waiting, printing]) end;
  path 1:(finish, [printing, printed]) end;
  var pages : queue of text;
      fetched, finished : array [1] of integer;
  entry procedure submit(page : text); begin append(pages, page) end;
  entry function fetch : text;
  begin fetch := first(pages); take(pages); fetched[0] := fetched[0] + 1 end;
  entry procedure finish; begin finished[0] := finished[0] + 1 end;
  entry procedure give_back(page : text); begin append(pages, page); fetched[0] := fetched[0] - 1 end;
  entry function waiting : integer; begin waiting := count(pages) end;
  entry function printing : integer; begin printing := fetched[0] - finished[0] end;
  entry function printed : integer; begin printed := finished[0] end;
  hold fetch until give_back, finish;
end;
