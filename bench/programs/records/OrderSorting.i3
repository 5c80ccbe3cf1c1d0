INTERFACE OrderSorting = Sorting(Order) END OrderSorting.
