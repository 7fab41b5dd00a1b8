{ Slots of a test lab: at most three builds at once, and a release alone. It keeps no values: the paths are all of it.
  A program takes a slot, waiting until one is free, builds, and gives it back. Of one that is gone it is given back. }
object build_slots;
  const slots = 3;
  path slots:(take_slot; give_slot) end;
  { The builds share the lab, a release has it for itself. }
  path 1:([take_slot; give_slot], (begin_release; end_release)) end;
  entry procedure take_slot; begin end;
  entry procedure give_slot; begin end;
  entry procedure begin_release; begin end;
  entry procedure end_release; begin end;
  hold take_slot until give_slot;
  hold begin_release until end_release;
end;
