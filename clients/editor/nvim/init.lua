-- The language server in neovim, from version 0.7 on: nvim -u clients/editor/nvim/init.lua FILE.mm
-- To have it in your own configuration, copy this file to ~/.config/nvim/plugin/mmkeep.lua. The server is the one that
-- `vim.g.mmkeep_lsp` names, or that of the clone that this file is in, or `mmkeep-lsp` on the path.
local here = debug.getinfo(1, 'S').source:match('^@(.*)/[^/]*$') or '.'
local near = vim.fn.fnamemodify(here .. '/../../python/bin/mmkeep-lsp', ':p')
local server = vim.g.mmkeep_lsp or (vim.fn.executable(near) == 1 and near) or 'mmkeep-lsp'

-- `top` and `program` may be set here, or in a mmkeep.json next to the database.
local settings = vim.g.mmkeep or {}

local function attach(event)
  local file = vim.api.nvim_buf_get_name(event.buf)
  if file == '' then
    return
  end
  local root = vim.fn.fnamemodify(file, ':p:h')
  local config = { name = 'mmkeep', cmd = { server }, root_dir = root, init_options = settings }
  if vim.lsp.start then
    -- From version 0.8 on.
    local same = function(client) return client.name == 'mmkeep' end
    vim.lsp.start(config, { bufnr = event.buf, reuse_client = same })
    return
  end
  for _, client in pairs(vim.lsp.get_active_clients()) do
    if client.name == 'mmkeep' then
      vim.lsp.buf_attach_client(event.buf, client.id)
      return
    end
  end
  local id = vim.lsp.start_client(config)
  if id then
    vim.lsp.buf_attach_client(event.buf, id)
  end
end

local function keys(buffer)
  local options = { buffer = buffer }
  vim.keymap.set('n', 'K', vim.lsp.buf.hover, options)
  vim.keymap.set('n', 'gd', vim.lsp.buf.definition, options)
  vim.keymap.set('n', 'gr', vim.lsp.buf.references, options)
  vim.keymap.set('n', 'gR', vim.lsp.buf.rename, options)
  vim.keymap.set('n', 'ga', vim.lsp.buf.code_action, options)
  vim.keymap.set('n', ']d', vim.diagnostic.goto_next, options)
  vim.keymap.set('n', '[d', vim.diagnostic.goto_prev, options)
end

-- Colours are those of vim, in the folder next to this one.
vim.opt.runtimepath:append(vim.fn.fnamemodify(here .. '/../vim', ':p'))
-- Marks change while you type.
vim.diagnostic.config({ update_in_insert = true })

vim.api.nvim_create_autocmd({ 'BufReadPost', 'BufNewFile' }, {
  pattern = '*.mm',
  callback = function(event)
    vim.bo[event.buf].filetype = 'metamath'
    vim.bo[event.buf].omnifunc = 'v:lua.vim.lsp.omnifunc'
    attach(event)
    keys(event.buf)
  end,
})

-- What is being done, in the last line.
vim.api.nvim_create_autocmd('User', {
  pattern = { 'LspProgressUpdate' },
  callback = function()
    for _, client in pairs(vim.lsp.get_active_clients()) do
      for _, each in pairs(client.messages and client.messages.progress or {}) do
        if each.title then
          vim.api.nvim_echo({ { each.title .. ': ' .. (each.message or '') } }, false, {})
        end
      end
    end
  end,
})
