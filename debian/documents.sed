# Links of the documents, for who has the package alone: what is there under another name, and plain text for what is not.
s!\((\.\./)?CHANGELOG\.md\)!(\1changelog.gz)!g
s!\((\.\./)deploy/([a-z]+\.(cfg|map))\)!(\1examples/\2)!g
s!\[([^]]+)\]\((\.\./)?(HANDLES|bench|crates|debian|deploy|tests)(/[^)]*)?\)!\1!g
