{ A ledger: accounts with whole amounts that never fall below zero. A transfer is done whole or not at all, also where
  the disk fails in the middle. Whoever has this file and a trace can audit what was done. }
object ledger;
  path 1:(open_account, pay_in, pay_out, transfer, [balance, total]) end;
  var accounts : table of integer;
      sum : array [1] of integer;
  entry procedure open_account(who : text);
  begin if has(accounts, who) then refuse('known') else store(accounts, who, 0) end;
  entry procedure pay_in(who : text; amount : integer);
  begin
    store(accounts, who, lookup(accounts, who) + amount);
    sum[0] := sum[0] + amount
  end;
  entry procedure pay_out(who : text; amount : integer);
  begin
    if lookup(accounts, who) < amount then refuse('poor');
    store(accounts, who, lookup(accounts, who) - amount);
    sum[0] := sum[0] - amount
  end;
  entry procedure transfer(payer, payee : text; amount : integer);
  begin
    if lookup(accounts, payer) < amount then refuse('poor');
    store(accounts, payer, lookup(accounts, payer) - amount);
    store(accounts, payee, lookup(accounts, payee) + amount)
  end;
  entry function balance(who : text) : integer; begin balance := lookup(accounts, who) end;
  entry function total : integer; begin total := sum[0] end;
end;
