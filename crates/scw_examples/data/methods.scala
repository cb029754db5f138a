object Main {
  def fibonacci(n: Int): Int = if (n < 2) n else fibonacci(n - 1) + fibonacci(n - 2);
  def power(base: Long, exponent: Int): Long = if (exponent == 0) 1L else base * power(base, exponent - 1);
  def isEven(n: Int): Boolean = if (n == 0) true else isOdd(n - 1);
  def isOdd(n: Int): Boolean = if (n == 0) false else isEven(n - 1);
  def main(args: Array[String]): Unit = {
    println(fibonacci(20));
    println(power(3L, 30));
    println(isEven(1001))
  }
}
