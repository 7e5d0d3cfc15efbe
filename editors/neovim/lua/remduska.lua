-- Starts `remduska lsp` for the file of the current buffer, and shows pages of failing runs in the browser.
local M = { command = { "remduska", "lsp" }, settings = { seconds = 10, smoke = false, errors = 5 } }

local client

local function open_page(_, result)
  vim.fn.jobstart({ "xdg-open", result.uri }, { detach = true })
  return { success = true }
end

local function config()
  local capabilities = vim.lsp.protocol.make_client_capabilities()
  capabilities.window = vim.tbl_extend("force", capabilities.window or {}, { showDocument = { support = true } })
  return {
    name = "remduska",
    cmd = M.command,
    root_dir = vim.fn.getcwd(),
    capabilities = capabilities,
    init_options = M.settings,
    settings = { remduska = M.settings },
    handlers = { ["window/showDocument"] = open_page },
    on_exit = function() client = nil end,
  }
end

function M.start()
  client = client or vim.lsp.start_client(config())
  if client then
    vim.lsp.buf_attach_client(0, client)
    vim.api.nvim_create_autocmd({ "BufEnter", "InsertLeave", "TextChanged", "CursorHold" }, { buffer = 0, callback = vim.lsp.codelens.refresh })
  end
  return client
end

return M
