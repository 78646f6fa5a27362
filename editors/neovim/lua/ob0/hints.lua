-- What was probably meant, in a line below each error: `ob0-check --hints` guesses it for the whole text. The diagnostics
-- are the server's, unchanged.
local found = {}

local space = vim.api.nvim_create_namespace("ob0_hints")
local rest = 300 -- milliseconds without a change
local asked = {} -- by buffer, how often the hints were asked for

-- The script in the program's folder, or else the one on PATH.
local function script()
  local near = vim.fn.fnamemodify(vim.fn.exepath(vim.g.ob0_program or "ob0"), ":h") .. "/ob0-check"
  return vim.fn.executable(near) == 1 and near or "ob0-check"
end

local function clear(buffer)
  if vim.api.nvim_buf_is_loaded(buffer) then
    vim.api.nvim_buf_clear_namespace(buffer, space, 0, -1)
  end
end

-- Shows the hints of a list of errors in a buffer, each below its line and as far in.
local function show(buffer, errors)
  for _, it in ipairs(errors) do
    local line = it.location.positions.begin.line - 1
    if it.content and line < vim.api.nvim_buf_line_count(buffer) then
      local before = vim.api.nvim_buf_get_lines(buffer, line, line + 1, false)[1]:match("^%s*")
      local words = { { before .. "hint: " .. it.content.body, "DiagnosticHint" } }
      vim.api.nvim_buf_set_extmark(buffer, space, line, 0, { virt_lines = { words } })
    end
  end
end

local function ask(buffer, text, is_current)
  local out = {}
  local job = vim.fn.jobstart({ script(), "--hints", "--json", "-" }, {
    stdout_buffered = true,
    on_stdout = function(_, lines)
      out = lines
    end,
    on_exit = function()
      local is_list, errors = pcall(vim.fn.json_decode, table.concat(out, "\n"))
      if is_list and type(errors) == "table" and is_current() then
        show(buffer, errors)
      end
    end,
  })
  if job > 0 then
    vim.fn.chansend(job, text)
    vim.fn.chanclose(job, "stdin")
  end
end

-- Clears the hints of a buffer, and asks for new ones if it has errors: once it rests, and not while somebody inserts text
-- (then Neovim shows no new diagnostics either). `text_of` gives the text as the server has it.
function found.update(buffer, has_errors, text_of)
  asked[buffer] = (asked[buffer] or 0) + 1
  clear(buffer)
  if not has_errors or vim.g.ob0_hints == 0 then
    return
  end
  local turn, tick = asked[buffer], nil
  local function is_current()
    local is_last = asked[buffer] == turn and vim.api.nvim_buf_is_loaded(buffer)
    return is_last and (tick == nil or vim.api.nvim_buf_get_changedtick(buffer) == tick)
  end
  local function once_it_rests()
    if not is_current() then
      return
    end
    if vim.api.nvim_get_mode().mode:match("^[iR]") and not vim.diagnostic.config().update_in_insert then
      return vim.defer_fn(once_it_rests, rest)
    end
    tick = vim.api.nvim_buf_get_changedtick(buffer)
    if vim.fn.executable(script()) == 1 then
      ask(buffer, text_of(buffer), is_current)
    end
  end
  vim.defer_fn(once_it_rests, rest)
end

return found
