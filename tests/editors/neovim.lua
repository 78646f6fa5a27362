-- Drives the server from Neovim, without a screen: what an editor sees while somebody types.
-- The server is started by the files of editors/neovim, which are installed.
-- Variables: OB0_FILE (the file to edit), OB0_REPORT (where the findings go, a line of JSON each),
-- OB0_STEPS (the name of a list of steps below); what a list of steps needs besides is in OB0_GIVEN, as JSON.
local file = vim.env.OB0_FILE
local report = assert(io.open(vim.env.OB0_REPORT, "w"))
local given = vim.fn.json_decode(vim.env.OB0_GIVEN or "{}")
local published, exited = 0, nil

local function say(step, found)
  report:write(vim.fn.json_encode({ step = step, found = found }), "\n")
  report:flush()
end

-- Waits until something holds.
local function await(what, holds)
  if not vim.wait(300000, holds, 5) then
    error("waited in vain for " .. what)
  end
end

local show = vim.lsp.handlers["textDocument/publishDiagnostics"]

vim.lsp.handlers["textDocument/publishDiagnostics"] = function(fault, result, context, config)
  show(fault, result, context, config)
  published = published + 1
end

-- Notes how a server ends, whoever starts it.
local function watched(settings)
  local before = settings.on_exit
  settings.on_exit = function(code, signal, ...)
    exited = { code = code, signal = signal }
    if before then
      before(code, signal, ...)
    end
  end
  return settings
end

for _, name in ipairs({ vim.lsp.start and "start" or "start_client" }) do
  local real = vim.lsp[name]
  vim.lsp[name] = function(settings, ...)
    return real(watched(settings), ...)
  end
end

-- The server of this buffer, once it has answered the first message.
local function client_here()
  for _, it in pairs((vim.lsp.get_clients or vim.lsp.buf_get_clients)(vim.lsp.get_clients and { bufnr = 0 } or 0)) do
    if it.name == "ob0" or it.config.cmd[1] == "ob0" then
      return it.initialized and it or nil
    end
  end
end

-- The diagnostics that the buffer shows, once the server has sent something new.
local function diagnosed(before)
  await("diagnostics", function()
    return published > before
  end)
  local found = {}
  for _, it in ipairs(vim.diagnostic.get(0)) do
    local code = it.code or (it.user_data and it.user_data.lsp and it.user_data.lsp.code) or vim.NIL
    table.insert(found, { it.lnum, it.col, it.end_lnum, it.end_col, code, it.message })
  end
  return found
end

-- Does something that changes the buffer, and gives what is shown then.
local function after(change)
  local before = published
  change()
  return diagnosed(before)
end

local function keys(typed)
  local codes = vim.api.nvim_replace_termcodes(typed, true, false, true)
  return function()
    vim.api.nvim_feedkeys(codes, "ntx", false)
  end
end

-- Goes to a place, a line and a character that are counted from 0.
local function go(place)
  vim.api.nvim_win_set_cursor(0, { place[1] + 1, place[2] })
end

local function here()
  local at = vim.api.nvim_win_get_cursor(0)
  return { at[1] - 1, at[2] }
end

-- What the editor shows in a window over the text.
local function shown()
  local found = nil
  await("a window over the text", function()
    for _, window in ipairs(vim.api.nvim_list_wins()) do
      if vim.api.nvim_win_get_config(window).relative ~= "" then
        found = window
      end
    end
    return found
  end)
  local lines = vim.api.nvim_buf_get_lines(vim.api.nvim_win_get_buf(found), 0, -1, true)
  vim.api.nvim_win_close(found, true)
  return vim.trim(table.concat(lines, "\n"))
end

-- The places that the editor lists.
local function listed()
  await("a list of places", function()
    return #vim.fn.getqflist() > 0
  end)
  local found = {}
  for _, it in ipairs(vim.fn.getqflist()) do
    table.insert(found, { it.lnum - 1, it.col - 1 })
  end
  vim.fn.setqflist({}, "r")
  vim.cmd("cclose")
  return found
end

-- The text as the server has it: with a line ending after the last line where the file has one there.
local function text()
  return table.concat(vim.api.nvim_buf_get_lines(0, 0, -1, true), "\n") .. (vim.bo.eol and "\n" or "")
end

-- The answer to a request at a place, as the server gave it.
local function answer_of(client, method, line, column, more)
  local params = {
    textDocument = { uri = vim.uri_from_bufnr(0) },
    position = { line = line, character = column },
  }
  local answer = client.request_sync(method, vim.tbl_extend("force", params, more or {}), 300000, 0)
  return answer and (answer.result or answer.err) or "no answer"
end

local steps = {}

-- A bad character comes and goes.
function steps.scanning()
  say("opened", diagnosed(0))
  say("typed", after(keys("gg0fWi$<Esc>")))
  say("mended", after(keys("x")))
  say("undone", after(keys("u")))
  say("redone", after(keys("<C-r>")))
end

-- A syntax fault comes and goes while a statement is typed, letter by letter.
function steps.typing()
  say("opened", diagnosed(0))
  for _, typed in ipairs({ ";", " ", "x", " ", ":", "=", " ", "1" }) do
    say("typed " .. typed, after(keys("gg/END<CR>hi" .. typed .. "<Esc>")))
  end
end

-- A faulty text is replaced by a mended one.
function steps.mending()
  say("opened", diagnosed(0))
  say("mended", after(function()
    vim.api.nvim_buf_set_lines(0, 0, -1, true, vim.split(vim.trim(given.mended), "\n"))
  end))
end

-- Questions, and the answers as the server gave them.
function steps.questions(client)
  say("opened", diagnosed(0))
  say("hover", answer_of(client, "textDocument/hover", 3, 7))
  say("definition", answer_of(client, "textDocument/definition", 2, 47))
  say("references", answer_of(client, "textDocument/references", 2, 47, { context = { includeDeclaration = true } }))
end

-- Queries as the editor makes them, at each of the places that are given: what it shows of a name, the places that it
-- lists, and where it jumps to.
function steps.looking()
  say("opened", diagnosed(0))
  for _, place in ipairs(given.places) do
    go(place)
    vim.lsp.buf.hover()
    say("shown", shown())
    go(place)
    vim.lsp.buf.references()
    say("listed", listed())
    go(place)
    vim.lsp.buf.definition()
    await("the jump to the definition", function()
      return not vim.deep_equal(here(), place)
    end)
    say("jumped", here())
  end
end

-- A rename as the editor requests it and applies it.
function steps.rename()
  say("opened", diagnosed(0))
  go(given.place)
  say("renamed", after(function()
    vim.lsp.buf.rename(given.name)
  end))
  say("text", text())
end

-- A code action as the editor requests it, offers it in its list, and applies it.
function steps.acting()
  say("opened", diagnosed(0))
  go(given.place)
  local offered = {}
  vim.ui.select = function(items, options, choose)
    for at, it in ipairs(items) do
      local title = options.format_item(it)
      table.insert(offered, title)
      if title == given.title then
        choose(it, at)
      end
    end
  end
  say("acted", after(function()
    vim.lsp.buf.code_action()
  end))
  say("offered", offered)
  say("text", text())
end

-- Lays the text out by the editor's own command, which waits for the answer.
local function lay_out()
  if vim.lsp.buf.format then
    vim.lsp.buf.format({ timeout_ms = 300000 })
  else
    vim.lsp.buf.formatting_sync(nil, 300000)
  end
end

-- A layout as the editor requests it and applies it, the server's own answer after that, and the same once more.
function steps.format(client)
  say("opened", diagnosed(0))
  vim.bo.expandtab = given.spaces
  vim.bo.tabstop, vim.bo.shiftwidth, vim.bo.softtabstop = given.size, given.size, given.size
  say("formatted", after(lay_out))
  say("text", text())
  say("left to do", answer_of(client, "textDocument/formatting", 0, 0, vim.lsp.util.make_formatting_params()))
  local tick = vim.api.nvim_buf_get_changedtick(0)
  lay_out()
  say("changes", vim.api.nvim_buf_get_changedtick(0) - tick)
  say("text again", text())
end

-- What the server would still format in a formatted text that was typed after the buffer was empty, in one go and after a wait.
function steps.emptied(client)
  say("opened", diagnosed(0))
  for _, typed in ipairs({ { "ggdG", "iMODULE M;<Esc>oEND M.<Esc>" }, { "ggdG", "u" }, { "ggdGiMODULE M;<Esc>oEND M.<Esc>" } }) do
    for _, it in ipairs(typed) do
      after(keys(it))
      vim.wait(500)
    end
    say("left to do", answer_of(client, "textDocument/formatting", 0, 0, vim.lsp.util.make_formatting_params()))
  end
end

-- What is said after each of some steps: everything that Neovim and ob0's files say.
local function said_by(does)
  local said = {}
  vim.notify = function(text)
    table.insert(said, text)
  end
  vim.api.nvim_echo = function(chunks)
    table.insert(said, chunks[1][1])
  end
  vim.api.nvim_err_writeln = vim.notify
  does()
  await("what is said", function()
    return #said > 0
  end)
  vim.wait(100)
  return table.concat(said, " | ")
end

local asked_in_error = {
  rename = function()
    vim.lsp.buf.rename("q")
  end,
  hover = vim.lsp.buf.hover,
  definition = vim.lsp.buf.definition,
  format = lay_out,
}

-- What is said of edits that are refused, and of what is asked while the module has an error.
function steps.refused()
  say("opened", diagnosed(0))
  for _, it in ipairs(given.renames) do
    say(it[2], said_by(function()
      go(it[1])
      vim.lsp.buf.rename(it[2])
    end))
  end
  after(keys("ggO$<Esc>"))
  for _, name in ipairs({ "rename", "hover", "definition", "format" }) do
    go(given.renames[1][1])
    say(name, said_by(asked_in_error[name]))
  end
end

-- What is told to the server of a text that it can't read, until it can; and what is shown then.
function steps.unread(client)
  say("opened", diagnosed(0))
  local told, said = {}, {}
  local notify = client.rpc.notify
  client.rpc.notify = function(method, params)
    table.insert(told, method:match("did%a+"))
    return notify(method, params)
  end
  vim.notify = function(text)
    table.insert(said, text)
  end
  local function after_telling(line, count)
    vim.api.nvim_buf_set_lines(0, 1, 2, true, { line })
    await("what is told", function()
      return #told >= count
    end)
    vim.wait(500)
    say(line:gsub("[^%w ]", ""), { table.concat(told, " "), table.concat(said, " | ") })
    told, said = {}, {}
  end
  after_telling("(* a \237\160\189 *)", 4)
  after_telling("(* b \237\160\189 *)", 2)
  after_telling("$", 1)
  say("read", diagnosed(published - 1))
end

-- A layout, how many changes it makes, the same once more, and the file that is written then.
function steps.formatted()
  say("opened", diagnosed(0))
  for _ = 1, 2 do
    local tick = vim.api.nvim_buf_get_changedtick(0)
    lay_out()
    say("changes", vim.api.nvim_buf_get_changedtick(0) > tick)
  end
  vim.cmd("write")
  local written = assert(io.open(file, "rb"))
  say("file", written:read("*a"))
end

-- What the prompt of a rename begins with.
function steps.prompted()
  say("opened", diagnosed(0))
  local prompt = nil
  vim.ui.input = function(settings)
    prompt = settings.default
  end
  go(given.place)
  vim.lsp.buf.rename()
  await("the prompt", function()
    return prompt
  end)
  say("prompted", prompt)
end

-- The lines that are shown below lines of the text, each with the line that it is below.
local function below()
  local space, shown = vim.api.nvim_get_namespaces().ob0_hints, {}
  for _, it in ipairs(vim.api.nvim_buf_get_extmarks(0, space, 0, -1, { details = true })) do
    table.insert(shown, { it[2], it[4].virt_lines[1][1][1] })
  end
  return shown
end

-- The hints below the errors of a text and of changed ones; and none if the user prevents it.
function steps.hinted()
  local function hinted(diagnostics)
    await("hints", function()
      return #diagnostics == 0 or #below() > 0
    end)
    return { diagnostics, below() }
  end
  say("opened", hinted(diagnosed(0)))
  for _, it in ipairs(given.changes) do
    say(it[1], hinted(after(function()
      vim.api.nvim_buf_set_lines(0, it[2], it[2] + 1, false, { it[1] })
    end)))
  end
  vim.g.ob0_hints = 0
  after(keys("ggO(* *)<Esc>"))
  vim.wait(1000)
  say("turned off", below())
end

-- The messages that are shown with diagnostics where Neovim shows none.
function steps.messages(client)
  say("opened", #diagnosed(0))
  vim.lsp.enable = vim.lsp.enable or function() end
  local function shown()
    vim.diagnostic.show()
    local space = vim.lsp.diagnostic.get_namespace(client.id)
    local texts = vim.diagnostic.get_namespace(space).user_data.virt_text_ns
    return texts and #vim.api.nvim_buf_get_extmarks(0, texts, 0, -1, {}) or 0
  end
  vim.diagnostic.config({ virtual_text = false })
  say("by Neovim", shown())
  vim.g.ob0_messages = 0
  require("ob0").show_messages(client)
  say("by the user's choice", shown())
  vim.g.ob0_messages = nil
  require("ob0").show_messages(client)
  say("by ob0", shown())
end

local function run()
  vim.cmd("edit " .. vim.fn.fnameescape(file))
  assert(vim.bo.filetype == "ob0", "the file was taken as " .. vim.bo.filetype)
  await("the server", client_here)
  local client = client_here()
  steps[vim.env.OB0_STEPS](client)
  client.stop()
  await("the server's end", function()
    return exited ~= nil
  end)
  say("ended", exited)
end

local fine, why = pcall(run)
if not fine then
  say("failed", tostring(why))
end
report:close()
vim.cmd(fine and "qall!" or "cquit")
