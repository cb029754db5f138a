object Main {
  def main(args: Array[String]): Unit = {
    var n: Int = 27;
    var steps: Int = 0;
    while (n != 1) {
      { if ((n % 2) == 0) n = n / 2 else n = (3 * n) + 1 };
      steps = steps + 1
    };
    println("27 needs " + steps + " steps");
    var i: Int = 1;
    while (i <= 3) {
      var j: Int = 1;
      while (j <= 3) { println(i * j); j = j + 1 };
      i = i + 1
    }
  }
}
