"""The desk's tests: 'desk/test' runs them."""
