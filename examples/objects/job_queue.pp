{ A job queue: programs submit jobs, workers claim the oldest one, and finish it or give it back. What a worker has
  claimed that is gone is given back, and nobody else finishes it. Give each job a text of its own. }
object job_queue;
  const most = 1000;
  { A claim waits until there is a job for it. }
  path most:((submit, give_back); claim) end;
  path 1:(submit, claim, finish, give_back, [waiting, claimed, is_claimed]) end;
  var jobs : queue of text;
      taken : table of integer;
  { A refused call counts for the paths: where a submit was refused, a claim may start and find nothing. It is refused
    as `empty` then, and the worker claims again. }
  entry procedure submit(job : text);
  begin
    if count(jobs) + count(taken) >= most then refuse('full');
    append(jobs, job)
  end;
  { It stands after a `;`, so it has no parameter, and is refused only where no job is there. }
  entry function claim : text;
  begin
    claim := first(jobs);
    store(taken, first(jobs), 1);
    take(jobs)
  end;
  entry procedure finish(job : text); begin erase(taken, job) end;
  entry procedure give_back(job : text);
  begin if has(taken, job) then erase(taken, job); append(jobs, job) end;
  entry function waiting : integer; begin waiting := count(jobs) end;
  entry function claimed : integer; begin claimed := count(taken) end;
  entry function is_claimed(job : text) : text;
  begin if has(taken, job) then is_claimed := 'yes' else is_claimed := 'no' end;
  hold claim until give_back, finish;
end;
