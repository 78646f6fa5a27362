-- The settings of the client of ob0, for every version of Neovim, and what keeps its edits from a text that they weren't
-- made for: an answer with edits is refused if the buffer has changed, or was unloaded, since the request. (Versions don't
-- suffice: Neovim compares no version 0, which a document just opened has, and a document that is opened
-- again is counted from there.)
local hints = require("ob0.hints")
local found = {}

local answered_by_edits = {
  ["textDocument/rename"] = true,
  ["textDocument/codeAction"] = true,
  ["textDocument/formatting"] = true,
}
-- (and which answer nothing in a module with an error)
local answered_by_nothing = {
  ["textDocument/hover"] = true,
  ["textDocument/definition"] = true,
  ["textDocument/prepareRename"] = true,
}
local changed = "the text has changed since the request"

-- A loaded buffer has another number after each change, undo and load; one that isn't loaded has none.
local function tick_of(buffer)
  return vim.api.nvim_buf_is_loaded(buffer) and vim.api.nvim_buf_get_changedtick(buffer) or nil
end

local function snapshot(buffer)
  buffer = buffer and buffer ~= 0 and buffer or vim.api.nvim_get_current_buf()
  return { buffer = buffer, tick = tick_of(buffer) }
end

local function is_current(made_for)
  return made_for.tick ~= nil and made_for.tick == tick_of(made_for.buffer)
end

-- The words of docs/MESSAGES.md for the server's answers. NAME and LINE are replaced according to the answer.
local words = {
  NoName = "no name here can be renamed: predeclared ones and the module's can't",
  Predeclared = "a predeclared name can't be renamed",
  BadName = "a name has letters and digits, a letter first, and isn't a reserved word",
  Duplicate = "`NAME` is declared in line LINE already",
  Captures = "with the new name, `NAME` in line LINE would refer to another declaration",
  TooLong = "the text would have more than 1,048,576 bytes",
  TooDeep = "the text would be nested more than 100 deep",
  Shadowed = "it would write TRUE or FALSE, which the module declares as something else",
  CommentInside = "there is a comment in the declaration that would be deleted",
  ["ill-typed"] = "the module has an error: fix the first one that is marked",
}

-- The offset in a line of a column in the server's units.
local function offset_in(line, column, encoding)
  return encoding == "utf-8" and math.min(column, #line) or vim.str_byteindex(line, column, true)
end

-- The words for a refusal, with the line as the editor counts it and the name at that place.
local function in_words(refusal, buffer, encoding)
  local kind, line, column = refusal:match("^(%a+) (%d+):(%d+)%-%d+:%d+$")
  if not kind then
    return words[refusal] or refusal
  end
  line, column = tonumber(line), tonumber(column)
  local text = vim.api.nvim_buf_get_lines(buffer, line, line + 1, false)[1]
  if not text or not words[kind] then
    return refusal
  end
  local name = text:match("^%w*", offset_in(text, column, encoding) + 1)
  return (words[kind]:gsub("NAME", name):gsub("LINE", line + 1))
end

local function tell(message)
  vim.notify("ob0: " .. message, vim.log.levels.WARN)
end

-- Tells why an answer has no edits, and returns a fault that Neovim itself doesn't show: it would add a number.
local unshown = vim.lsp.protocol.ErrorCodes.ContentModified
local function refused(message)
  tell(message)
  return { code = unshown, message = message }
end

-- The text of a range, with LF at the end of each line.
local function text_in(buffer, range, encoding)
  local first, last = range.start, range["end"]
  local lines = vim.api.nvim_buf_get_lines(buffer, first.line, last.line + 1, false)
  if last.line >= first.line + #lines then -- (after the end of the last line)
    table.insert(lines, "")
  end
  lines[#lines] = lines[#lines]:sub(1, offset_in(lines[#lines], last.character, encoding))
  lines[1] = lines[1]:sub(offset_in(lines[1], first.character, encoding) + 1)
  return table.concat(lines, "\n")
end

-- The edits of a layout that change something in a buffer with CR LF: in the server's text each line end differs from the layout's.
local function without_line_ends(edits, buffer, encoding)
  if not vim.api.nvim_buf_is_loaded(buffer) or vim.bo[buffer].fileformat ~= "dos" then
    return edits
  end
  return vim.tbl_filter(function(it)
    return text_in(buffer, it.range, encoding) ~= it.newText
  end, edits)
end

-- An answer as its handler gets it: an error instead of edits of another text, and a refusal in words. The edits of code actions
-- keep what they were made for, since they are applied when one is chosen.
local function checked(made_for, method, fault, result, encoding)
  if fault and fault.code == unshown then -- (told by a request inside this one)
    return fault, nil
  end
  if fault and fault.message then
    return refused(is_current(made_for) and in_words(fault.message, made_for.buffer, encoding) or fault.message), nil
  end
  if type(result) ~= "table" then
    return fault, result
  end
  if not is_current(made_for) then
    return refused(changed), nil
  end
  if method == "textDocument/formatting" then
    return fault, without_line_ends(result, made_for.buffer, encoding)
  end
  for _, it in ipairs(result) do
    if type(it.edit) == "table" then
      it.edit.ob0_made_for = made_for
    end
  end
  return fault, result
end

-- Puts a function in front of one of the client's, which Neovim 0.11 and later call as a method.
local function wrap(client, name, wrapper)
  local inner = client[name]
  client[name] = function(first, ...)
    if first ~= client then
      return wrapper(inner, first, ...)
    end
    return wrapper(function(...)
      return inner(client, ...)
    end, ...)
  end
end

local guards_actions = false

-- Actions are chosen from a list, and in some lists the text can change before that.
local function guard_actions()
  if guards_actions then
    return
  end
  guards_actions = true
  local apply = vim.lsp.util.apply_workspace_edit
  vim.lsp.util.apply_workspace_edit = function(edit, ...)
    if edit.ob0_made_for and not is_current(edit.ob0_made_for) then
      tell(changed)
      return
    end
    return apply(edit, ...)
  end
end

local function has_error(client, buffer)
  return #vim.diagnostic.get(buffer, { namespace = vim.lsp.diagnostic.get_namespace(client.id) }) > 0
end

-- Tells that nothing was found because the module has an error, after what Neovim itself says.
local function tell_of_error(client, buffer)
  if has_error(client, buffer) then
    vim.schedule(function()
      vim.cmd("redraw")
      tell(words["ill-typed"])
    end)
  end
end

-- The answer to prepareRename, with the name for Neovim 0.7's prompt, which would cut it out of the line by bytes. Nothing if
-- nothing can be renamed, which is told here: Neovim would only say that.
local function prepared(client, buffer, fault, result)
  if fault or type(result) ~= "table" or not result.start then
    if not fault and not result then
      tell(words[has_error(client, buffer) and "ill-typed" or "NoName"])
    end
    return result
  end
  local line = vim.api.nvim_buf_get_lines(buffer, result.start.line, result.start.line + 1, false)[1] or ""
  local first, last = (offset_in(line, result.start.character, client.offset_encoding)), result["end"].character
  last = offset_in(line, last, client.offset_encoding)
  return { range = result, placeholder = line:sub(first + 1, last) }
end

-- The whole text of a buffer, as it is told.
local function text_of(buffer)
  local line_end = ({ unix = "\n", dos = "\r\n", mac = "\r" })[vim.bo[buffer].fileformat]
  local text = table.concat(vim.api.nvim_buf_get_lines(buffer, 0, -1, true), line_end)
  return vim.bo[buffer].eol and text .. line_end or text
end

-- Sends the whole text instead of changes at its start, if Neovim is 0.7: that loses the end of the last line when the buffer
-- was empty.
local function send_starts_whole(client)
  wrap(client, "notify", function(notify, method, params)
    local is_at_start = false
    for _, it in ipairs(method == "textDocument/didChange" and params.contentChanges or {}) do
      is_at_start = is_at_start or it.range and it.range.start.line == 0 and it.range.start.character == 0
    end
    if is_at_start then
      params.contentChanges = { { text = text_of(vim.uri_to_bufnr(params.textDocument.uri)) } }
    end
    return notify(method, params)
  end)
end

local unread = { ["not JSON"] = true, ["not a message"] = true }

-- Has a client close a document that the server couldn't read, and open it again once. If that isn't read either (the text has
-- bytes that aren't UTF-8), it stays closed until it is changed. The server names no document, so it is the one told last.
local function open_unread_again(client)
  local told, send, tried, closed = nil, nil, {}, {}
  local function opening(uri)
    local buffer = vim.uri_to_bufnr(uri)
    local version = vim.api.nvim_buf_get_changedtick(buffer)
    return { textDocument = { uri = uri, languageId = "ob0", version = version, text = text_of(buffer) } }
  end
  wrap(client, "notify", function(notify, method, params)
    send = notify
    local uri = params and params.textDocument and params.textDocument.uri
    if method == "textDocument/didOpen" or method == "textDocument/didChange" then
      told = uri
    elseif method == "textDocument/didClose" then
      tried[uri], closed[uri] = nil, nil
    end
    if method == "textDocument/didChange" and closed[uri] then
      closed[uri] = nil
      return notify("textDocument/didOpen", opening(uri))
    end
    return notify(method, params)
  end)
  local publish = client.handlers["textDocument/publishDiagnostics"]
  client.handlers["textDocument/publishDiagnostics"] = function(fault, result, ...)
    if result and result.version then
      tried[result.uri] = nil
    end
    local shows = publish or vim.lsp.handlers["textDocument/publishDiagnostics"] or vim.lsp.diagnostic.on_publish_diagnostics
    shows(fault, result, ...)
    if result then
      hints.update(vim.uri_to_bufnr(result.uri), #result.diagnostics > 0, text_of)
    end
  end
  return function(why)
    local uri = told
    if not uri or closed[uri] or not vim.api.nvim_buf_is_loaded(vim.uri_to_bufnr(uri)) then
      return
    end
    local is_again, is_told = tried[uri] ~= nil, tried[uri] == "again"
    send("textDocument/didClose", { textDocument = { uri = uri } })
    if is_again then
      closed[uri], tried[uri] = true, "again"
    else
      tried[uri] = "once"
      send("textDocument/didOpen", opening(uri))
    end
    if not is_told then
      local how = is_again and "it stays closed until it is changed" or "it is opened again"
      tell(("the server can't read %s: %s (%s)"):format(vim.fn.fnamemodify(vim.uri_to_fname(uri), ":t"), how, why))
    end
  end
end

-- Shows the message of each diagnostic at the end of its line, if nothing shows messages: as in Neovim 0.11 and later, unless the
-- user has set something else.
function found.show_messages(client)
  local shown = vim.diagnostic.config()
  if vim.lsp.enable and vim.g.ob0_messages ~= 0 and not shown.virtual_text and not shown.virtual_lines then
    vim.diagnostic.config({ virtual_text = true }, vim.lsp.diagnostic.get_namespace(client.id))
  end
end

local guarded = setmetatable({}, { __mode = "k" })

-- Has the last line of a buffer end as it will in its file, so that the server has the text that is saved.
function found.end_last_line(buffer)
  if vim.bo[buffer].fixeol and not vim.bo[buffer].binary then
    vim.bo[buffer].eol = true
  end
end

-- Has a client refuse answers that are late, say why, and count places as the server does.
function found.guard(client)
  if guarded[client] then
    return
  end
  guarded[client] = open_unread_again(client)
  guard_actions()
  client.offset_encoding = client.server_capabilities.positionEncoding or client.offset_encoding
  found.show_messages(client)
  if not vim.lsp.start then
    send_starts_whole(client)
  end
  wrap(client, "request", function(request, method, params, handler, buffer)
    if not answered_by_edits[method] and not answered_by_nothing[method] then
      return request(method, params, handler, buffer)
    end
    local made_for = snapshot(buffer)
    handler = handler or client.handlers[method] or vim.lsp.handlers[method]
    return request(method, params, function(fault, result, ...)
      if answered_by_edits[method] then
        fault, result = checked(made_for, method, fault, result, client.offset_encoding)
      elseif method == "textDocument/prepareRename" then
        result = prepared(client, made_for.buffer, fault, result)
        if not fault and not result then
          return
        end
      elseif not fault and not result then
        tell_of_error(client, made_for.buffer)
      end
      return handler(fault, result, ...)
    end, buffer)
  end)
  wrap(client, "request_sync", function(request, method, params, timeout, buffer)
    local made_for = snapshot(buffer)
    local answer, why = request(method, params, timeout, buffer)
    if answer and answered_by_edits[method] then
      answer.err, answer.result = checked(made_for, method, answer.err, answer.result, client.offset_encoding)
    end
    return answer, why
  end)
end

-- Takes an answer without an id, which is how the server answers what it can't read.
local function take_unread(client, answer)
  local fault = type(answer) == "table" and answer.id == nil and answer.error
  if client and type(fault) == "table" and unread[fault.message] then
    guarded[client](fault.message)
  end
end

local function capabilities()
  local announced = vim.lsp.protocol.make_client_capabilities()
  announced.workspace.workspaceEdit.documentChanges = true
  if vim.lsp.start then
    -- (Neovim 0.10 counts UTF-16 wrong in lines with many letters outside ASCII; 0.7 counts it right)
    announced.general = announced.general or {}
    announced.general.positionEncodings = { "utf-8", "utf-16" }
  end
  return announced
end

function found.settings()
  local started = nil
  return {
    name = "ob0",
    cmd = { vim.g.ob0_program or "ob0", "serve" },
    filetypes = { "ob0" },
    capabilities = capabilities(),
    on_init = function(client)
      started = client
      found.guard(client)
    end,
    on_error = vim.schedule_wrap(function(_, answer)
      take_unread(started, answer)
    end),
  }
end

return found
