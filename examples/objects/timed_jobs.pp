{ A job queue for jobs that may take so long, and no longer: who submits a job asks how many seconds it has been claimed,
  gives it back where these are too many, and another worker claims it. Give each job a text of its own. }
object timed_jobs;
  const most = 1000;
  { A claim waits until there is a job for it. }
  path most:((submit, give_back); claim) end;
  path 1:(submit, claim, finish, give_back, tick, [seconds, waiting]) end;
  var jobs : queue of text;
      { of each job that is claimed, in which second that was; and the seconds so far, as the server counts them }
      since : table of integer;
      clock : array [1] of integer;
  entry procedure submit(job : text);
  begin
    if count(jobs) + count(since) >= most then refuse('full');
    append(jobs, job)
  end;
  { Where a call before it was refused it may find no job: it is refused as `empty` then, and the worker claims again. }
  entry function claim : text;
  begin
    claim := first(jobs);
    store(since, first(jobs), clock[0]);
    take(jobs)
  end;
  { `missing` where nobody has the job any more. }
  entry procedure finish(job : text); begin erase(since, job) end;
  entry procedure give_back(job : text); begin erase(since, job); append(jobs, job) end;
  entry procedure tick; begin clock[0] := clock[0] + 1 end;
  { How long a job has been claimed; `missing` where nobody has it. }
  entry function seconds(job : text) : integer; begin seconds := clock[0] - lookup(since, job) end;
  entry function waiting : integer; begin waiting := count(jobs) end;
  { Anybody may end a hold: so whoever looks after a job can take it from a worker that hangs. }
  hold claim until give_back, finish by any;
  every 1 call tick;
end;
