% The k cheapest states one after another, in one process: find the best one,
% write it, forbid it, go on. Beside a plant; k by -c k=16. With k=0 all models
% of one search, as the options ask. The last line is the seconds of processor
% time from before grounding to the last answer, with what they are written by.
#script(lua)
function main(prg)
  local k = tonumber(tostring(prg:get_const("k")))
  local start = os.clock()
  local atoms
  local function keep(model)
    atoms = {}
    for _, atom in ipairs(model:symbols{shown = true}) do
      atoms[#atoms + 1] = tostring(atom)
    end
    if k == 0 then io.write(table.concat(atoms, " "), "\n") end
  end
  prg:ground({{"base", {}}})
  if k == 0 then prg:solve{on_model = keep} end
  for n = 1, k do
    atoms = nil
    prg:solve{on_model = keep}
    if atoms == nil then break end
    io.write(table.concat(atoms, " "), "\n")
    if n < k then
      prg:add("no" .. n, {}, ":- " .. table.concat(atoms, ", ") .. ".")
      prg:ground({{"no" .. n, {}}})
    end
  end
  io.write(string.format("seconds %.6f\n", os.clock() - start))
end
#end.
