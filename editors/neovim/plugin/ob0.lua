-- Starts `ob0 serve` for buffers of Oberon-0, and one server for all of them.
if vim.g.loaded_ob0 then -- (a second copy of these files)
  return
end
vim.g.loaded_ob0 = 1

local ob0 = require("ob0")

if vim.lsp.start then -- Neovim 0.8 and later: clients with settings of the user's own are guarded too
  vim.api.nvim_create_autocmd("LspAttach", {
    callback = function(attached)
      local client = vim.lsp.get_client_by_id(attached.data.client_id)
      if client and client.name == "ob0" then
        ob0.guard(client)
      end
    end,
  })
end

local warned = false

-- Returns whether the program exists. If it doesn't, a message says so once.
local function is_there(program)
  if vim.fn.executable(program) == 1 then
    return true
  end
  if not warned then
    vim.notify("There is no program " .. program .. ": set vim.g.ob0_program to its path", vim.log.levels.WARN)
    warned = true
  end
  return false
end

if vim.lsp.enable then -- Neovim 0.11 and later: by lsp/ob0.lua
  vim.api.nvim_create_autocmd("FileType", {
    pattern = "ob0",
    callback = function(opened)
      ob0.end_last_line(opened.buf)
      is_there(ob0.settings().cmd[1])
    end,
  })
  vim.lsp.enable("ob0")
  return
end

local running = nil -- the client's number, for Neovim 0.7, which has no vim.lsp.start

local function attach(buffer)
  local settings = ob0.settings()
  if not is_there(settings.cmd[1]) then
    return
  end
  settings.root_dir = vim.fn.fnamemodify(vim.api.nvim_buf_get_name(buffer), ":p:h")
  settings.on_exit = function()
    running = nil
  end
  if vim.lsp.start then -- Neovim 0.8 to 0.10: reuses the server of the folder
    vim.lsp.start(settings, { bufnr = buffer })
    return
  end
  running = running or vim.lsp.start_client(settings)
  if running then
    vim.lsp.buf_attach_client(buffer, running)
  end
end

vim.api.nvim_create_autocmd("FileType", {
  pattern = "ob0",
  callback = function(opened)
    ob0.end_last_line(opened.buf)
    attach(opened.buf)
  end,
})
